//! Every value of a byte that decides something, every length of an output,
//! and every beginning of a list. They are compared, and not stored.

use super::{Cases, FRAME, List, open, others};
use crate::fixed::{RATE_1000, SAMPLE};
use crate::players::records::{Event, HEAD, RECORDS, TRIGGER, record, settings_at};
use crate::rust::envelope::Trigger;

pub(super) fn cases(to: &mut Cases) {
    tags_and_lengths(to);
    voices(to);
    codes(to);
    outputs(to);
    beginnings(to);
}

fn name(event: &Event) -> &'static str {
    RECORDS[usize::from(event.tag()) - 1].0
}

/// Every tag, first and later, and every length of each record up to 256.
fn tags_and_lengths(to: &mut Cases) {
    for tag in 0..=255 {
        for length in [0, 1, 2, 4, 72] {
            let bytes = record(tag, &vec![0; length]);
            let name = format!("tag {tag} of {length}");
            to.any(
                &format!("{name}, first"),
                List::default().bytes(&bytes),
                FRAME,
            );
            to.any(&name, open(3).bytes(&bytes), FRAME);
        }
    }
    for event in others() {
        for length in 0..=256 {
            let list = open(3).bytes(&record(event.tag(), &vec![0; length]));
            to.any(&format!("{} of {length}", name(&event)), list, FRAME);
        }
    }
}

/// Every number of voices, and every voice of a few numbers of them.
fn voices(to: &mut Cases) {
    for voices in 0..=255 {
        let list = open(voices).frames(1);
        to.any(&format!("{voices} voices, a frame"), list, 4 * FRAME);
    }
    for voices in [0, 1, 16, 17, 63, 64] {
        for voice in 0..=255 {
            for event in [
                Event::Settings(voice, SAMPLE),
                Event::Trigger(voice, Trigger::New),
                Event::Release(voice),
                Event::Reset(voice),
                Event::Join(voice, 0),
                Event::Join(0, voice),
            ] {
                let list = open(voices).then(event).frames(3);
                let name = format!("{} on {voice} of {voices}", name(&event));
                to.any(&name, list, 12 * FRAME);
            }
        }
    }
}

/// Every code byte.
fn codes(to: &mut Cases) {
    for event in [
        Event::Open(1, RATE_1000, SAMPLE),
        Event::Settings(0, SAMPLE),
        Event::SettingsForAll(SAMPLE),
    ] {
        let Some(at) = settings_at(event.tag()) else {
            continue;
        };
        for offset in [0, 45, 46] {
            for byte in 0..=255 {
                let mut bytes = event.record();
                bytes[HEAD + at + offset] = byte;
                let name = format!("{}, code {offset} is {byte}", name(&event));
                let first = List::default().bytes(&bytes).note(0).frames(3);
                to.any(&format!("{name}, first"), first, 4 * FRAME);
                let later = open(1).bytes(&bytes).note(0).frames(3);
                to.any(&name, later, 4 * FRAME);
            }
        }
    }
    for kind in 0..=255 {
        for voice in [0, 1] {
            let list = open(1).bytes(&record(TRIGGER, &[voice, kind])).frames(5);
            to.any(&format!("kind {kind} on {voice}"), list, 5 * FRAME);
        }
    }
}

/// Every length of an output around one and two frames.
fn outputs(to: &mut Cases) {
    for (voices, stride) in [(1, 16), (17, 32), (48, 48), (64, 64)] {
        for out_len in 0..=2 * stride * 4 + 9 {
            for frames in 0..=2 {
                let list = open(voices).note(0).frames(frames);
                let name = format!("{frames} frames of {voices} into {out_len}");
                to.any(&name, list, out_len);
            }
        }
    }
}

/// Every beginning of a list with every kind of record.
fn beginnings(to: &mut Cases) {
    let mut list = open(3).note(2).frames(3);
    for event in others() {
        list = list.then(event);
    }
    for length in 0..=list.0.len() {
        let cut = List::default().bytes(&list.0[..length]);
        to.any(&format!("the first {length} bytes"), cut, 6 * FRAME);
    }
}
