//! Each refusal by its number, at a known place.

use super::{Cases, List, OPENED, open, others};
use crate::fixed::{RATE_1000, SAMPLE};
use crate::players::records::{Event, HEAD, OPEN, RECORDS, TRIGGER, record, settings_at};
use crate::rust::envelope::Trigger;

pub(super) fn cases(to: &mut Cases) {
    voices(to);
    fits(to);
    tags(to);
    lengths(to);
    first(to);
    codes(to);
}

/// 1 and 2.
fn voices(to: &mut Cases) {
    for voices in [65, 128, 255] {
        to.refuses(&format!("{voices} voices"), open(voices), 1, 0);
    }
    for (voices, voice) in [(3, 3), (3, 255), (64, 64), (0, 0), (17, 63)] {
        for event in [
            Event::Settings(voice, SAMPLE),
            Event::Trigger(voice, Trigger::Legato),
            Event::Release(voice),
            Event::Reset(voice),
            Event::Join(voice, 0),
            Event::Join(0, voice),
            Event::Join(voice, voice),
        ] {
            let tag = usize::from(event.tag());
            let name = format!("{} on {voice} of {voices}", RECORDS[tag - 1].0);
            let list = open(voices).frames(0).then(event).frames(1);
            to.refuses(&name, list, 2, OPENED + 7);
        }
    }
}

/// 6.
fn fits(to: &mut Cases) {
    to.refuses("1 byte", List::default().bytes(&[1]), 6, 0);
    to.refuses("2 bytes", List::default().bytes(&[1, 72]), 6, 0);
    to.refuses("a head alone", List::default().bytes(&[1, 72, 0]), 6, 0);
    let whole = open(1).0;
    to.refuses("an open cut", List::default().bytes(&whole[..74]), 6, 0);
    to.refuses("1 byte behind", open(1).bytes(&[9]), 6, OPENED);
    to.refuses("2 bytes behind", open(1).bytes(&[9, 4]), 6, OPENED);
    for event in others() {
        let record = event.record();
        let name = format!("{}, body cut", RECORDS[usize::from(event.tag()) - 1].0);
        let list = open(3).note(0).bytes(&record[..record.len() - 1]);
        to.refuses(&name, list, 6, OPENED + 5);
    }
    let long = List::default().bytes(&[1, 255, 255]).bytes(&[0; 200]);
    to.refuses("a length of 65,535", long, 6, 0);
    to.refuses("bytes of no record", open(1).bytes(&[0; 2]), 6, OPENED);
}

/// 7.
fn tags(to: &mut Cases) {
    for tag in [0, 10, 11, 128, 255] {
        let list = open(1).note(0).bytes(&record(tag, &[1, 2, 3]));
        to.refuses(&format!("tag {tag}"), list, 7, OPENED + 5);
        let first = List::default().bytes(&record(tag, &[]));
        to.refuses(&format!("tag {tag} first"), first, 7, 0);
    }
}

/// 8.
fn lengths(to: &mut Cases) {
    for (number, event) in others().into_iter().enumerate() {
        let (name, _) = RECORDS[number + 1];
        let body = event.record()[HEAD..].to_vec();
        let short = record(event.tag(), &body[..body.len() - 1]);
        let list = open(3).bytes(&short).frames(1);
        to.refuses(&format!("{name}, one short"), list, 8, OPENED);
        let long = record(event.tag(), &[body, vec![0]].concat());
        let list = open(3).bytes(&long).frames(1);
        to.refuses(&format!("{name}, one long"), list, 8, OPENED);
    }
    let body = &open(1).0[HEAD..];
    let short = List::default().bytes(&record(OPEN, &body[..71]));
    to.refuses("open, one short", short, 8, 0);
    let long = List::default().bytes(&record(OPEN, &[body, &[0]].concat()));
    to.refuses("open, one long", long, 8, 0);
    let high = open(1).bytes(&record(9, &[0; 256 + 4]));
    to.refuses("a length's higher byte", high, 8, OPENED);
}

/// 9.
fn first(to: &mut Cases) {
    to.refuses("an empty list", List::default(), 9, 0);
    for event in others() {
        let name = RECORDS[usize::from(event.tag()) - 1].0;
        let list = List::default().then(event).frames(1);
        to.refuses(&format!("{name} first"), list, 9, 0);
    }
    let again = Event::Open(1, RATE_1000, SAMPLE);
    let list = open(1).then(again);
    to.refuses("a second open", list, 9, OPENED);
    let list = open(1).note(0).frames(1).then(again).frames(1);
    to.refuses("an open behind frames", list, 9, OPENED + 12);
}

/// 10.
fn codes(to: &mut Cases) {
    for (event, place) in [
        (Event::Open(1, RATE_1000, SAMPLE), 0),
        (Event::Settings(0, SAMPLE), OPENED),
        (Event::SettingsForAll(SAMPLE), OPENED),
    ] {
        let Some(at) = settings_at(event.tag()) else {
            continue;
        };
        for (code, offset) in [("unit", 0), ("legato", 45), ("restart", 46)] {
            for byte in [2, 255] {
                let mut bytes = event.record();
                bytes[HEAD + at + offset] = byte;
                let before = if place == 0 { List::default() } else { open(1) };
                let name = RECORDS[usize::from(event.tag()) - 1].0;
                let name = format!("{name}, {code} {byte}");
                to.refuses(&name, before.bytes(&bytes), 10, place);
            }
        }
    }
    for kind in [3, 255] {
        let list = open(1).bytes(&record(TRIGGER, &[0, kind]));
        to.refuses(&format!("a trigger of kind {kind}"), list, 10, OPENED);
    }
}
