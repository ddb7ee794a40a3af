//! Lists that are played: voices, events of every kind, and long and short
//! blocks.

use super::{Cases, FRAME, List, open, open_with, others};
use crate::fixed::{NONE, SAMPLE};
use crate::players::records::{Event, FRAMES, RECORDS};
use crate::rust::envelope::{EnvelopeParams, StealRestart, TimeUnit, Timing, Trigger};

/// Voices, and the levels of their frames.
const STRIDES: [(u8, usize); 9] = [
    (0, 16),
    (1, 16),
    (15, 16),
    (16, 16),
    (17, 32),
    (33, 48),
    (48, 48),
    (49, 64),
    (64, 64),
];

/// A bent attack of so many samples.
fn attack(samples: f32) -> EnvelopeParams {
    EnvelopeParams {
        attack: samples,
        attack_curve: 0.25,
        ..NONE
    }
}

pub(super) fn cases(to: &mut Cases) {
    let sample = open(1).note(0).frames(10);
    to.plays("document 01's sample list", sample, 10 * FRAME, 10);
    voices(to);
    events(to);
    blocks(to);
    stages(to);
}

fn voices(to: &mut Cases) {
    for (voices, stride) in STRIDES {
        let settings = EnvelopeParams { end: 0.5, ..SAMPLE };
        let list = open_with(voices, settings);
        let last = voices.saturating_sub(1);
        let list = if voices > 0 { list.note(last) } else { list };
        let name = format!("{voices} voices");
        to.plays(&name, list.frames(4), 4 * stride * 4, 4);
        let name = format!("{voices} voices, and no frames");
        to.plays(&name, open(voices), 0, 0);
    }
}

fn events(to: &mut Cases) {
    to.plays("an open alone", open(3), FRAME, 0);
    for event in others() {
        let (name, _) = RECORDS[usize::from(event.tag()) - 1];
        let list = open(3).note(2).frames(3).then(event).frames(2);
        let frames = 5 + i64::from(event.tag() == FRAMES);
        to.plays(&format!("{name} in mid-note"), list, 6 * FRAME, frames);
    }
    for trigger in [Trigger::New, Trigger::Retrigger, Trigger::Legato] {
        for (inverted, restart) in [
            (false, StealRestart::CurrentLevel),
            (true, StealRestart::StartLevel),
        ] {
            let settings = EnvelopeParams {
                start: 0.25,
                legato_inverted: inverted,
                steal_restart: restart,
                ..SAMPLE
            };
            let list = open_with(2, settings).note(1).frames(5);
            let list = list.then(Event::Trigger(1, trigger)).frames(3);
            let name = format!("{trigger:?}, {restart:?}");
            to.plays(&name, list, 8 * FRAME, 8);
        }
    }
    let list = open(3).note(2).frames(4).then(Event::Join(0, 2));
    let list = list.then(Event::Join(1, 1)).frames(3);
    to.plays("joins with another and with itself", list, 7 * FRAME, 7);
    let list = open(2).note(0).note(1).frames(7);
    let list = list.then(Event::Release(0)).frames(2);
    let list = list.then(Event::Reset(1)).frames(1);
    to.plays("a release and a reset", list, 10 * FRAME, 10);
    beats(to);
}

fn beats(to: &mut Cases) {
    let settings = EnvelopeParams {
        unit: TimeUnit::Tempo,
        delay: 0.001,
        attack: 0.004,
        hold: 0.0,
        ..SAMPLE
    };
    let timing = Timing::new(1000.0).with_tempo(60.0);
    let list = List::default().then(Event::Open(1, timing, settings));
    let list = list.note(0).frames(3).then(Event::Timing(Timing {
        tempo: 30.0,
        scale: 0.5,
        ..timing
    }));
    to.plays("beats, and another tempo", list.frames(6), 9 * FRAME, 9);
}

fn blocks(to: &mut Cases) {
    let list = open(1).note(0).frames(0).frames(2).frames(0);
    to.plays("records of 0 frames", list, 2 * FRAME, 2);
    to.plays("only 0 frames", open(1).frames(0), 0, 0);
    let mut list = open(1).note(0);
    for _ in 0..10 {
        list = list.frames(1);
    }
    to.plays("one frame a record", list, 10 * FRAME, 10);
    let list = open_with(64, attack(40.0)).note(0).note(63);
    let (whole, cut) = (list.clone().frames(48), list.frames(13).frames(35));
    to.plays("48 frames of 64 voices", whole, 48 * 256, 48);
    to.plays("48 frames of 64 voices, cut", cut, 48 * 256, 48);
    let list = open_with(17, attack(90.0)).note(16).frames(100);
    to.plays("over 3,072 levels in one record", list, 100 * 128, 100);
    let list = open_with(64, attack(300.0)).note(1).note(62).frames(256);
    to.plays("16,384 levels in one record", list, 65_536, 256);
    let list = open_with(49, attack(300.0)).note(48).frames(400);
    to.plays("25,600 levels in one record", list, 400 * 256, 400);
    let mut list = open_with(1, attack(90.0)).note(0);
    for _ in 0..100 {
        list = list.frames(1).then(Event::Timing(Timing::new(1000.0)));
    }
    to.plays("100 records of one frame", list, 100 * FRAME, 100);
}

/// Stages with one segment and with two. The long lists are not stored.
fn stages(to: &mut Cases) {
    for samples in [16_384.0, 16_385.0] {
        let list = open_with(1, attack(samples)).note(0);
        let name = format!("the first frames of {samples} samples");
        to.plays(&name, list.clone().frames(9), 9 * FRAME, 9);
        let list = list.frames(16_380).frames(10);
        let name = format!("a stage of {samples} samples");
        to.plays(&name, list, 16_390 * FRAME, 16_390);
    }
}
