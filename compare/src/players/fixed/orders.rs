//! Several things that are wrong in one record, or one after the other: the
//! first by document 01's order is told.

use super::{Cases, FRAME, List, OPENED, open};
use crate::fixed::{RATE_1000, SAMPLE};
use crate::players::records::{Event, FRAMES, HEAD, OPEN, TRIGGER, record, settings_at};
use crate::reference::LIMIT;
use crate::rust::envelope::{EnvelopeParams, Timing};

/// Settings with a time over its limit.
const LONG: EnvelopeParams = EnvelopeParams {
    decay: LIMIT.next_up(),
    ..SAMPLE
};

fn fast() -> Timing {
    Timing::new(f64::INFINITY)
}

/// The record of an event, the last byte of whose settings has no name.
fn coded(event: Event) -> Vec<u8> {
    let mut bytes = event.record();
    if let Some(at) = settings_at(event.tag()) {
        bytes[HEAD + at + 46] = 7;
    }
    bytes
}

pub(super) fn cases(to: &mut Cases) {
    fit_and_tag(to);
    length_and_first(to);
    codes_and_calls(to);
    records(to);
}

fn fit_and_tag(to: &mut Cases) {
    let list = open(1).bytes(&[0, 1, 0]);
    to.refuses("6 before 7", list, 6, OPENED);
    let list = open(1).bytes(&[200, 255, 255, 1, 2]);
    to.refuses("6 before 7, a long body", list, 6, OPENED);
    let list = open(1).bytes(&[FRAMES, 5, 0, 1, 0, 0, 0]);
    to.refuses("6 before 8", list, 6, OPENED);
    let list = List::default().bytes(&[FRAMES, 4, 0, 1]);
    to.refuses("6 before 9", list, 6, 0);
    let list = List::default().bytes(&record(0, &[1]));
    to.refuses("7 before 9", list, 7, 0);
    let list = open(1).bytes(&record(10, &[0; 72]));
    to.refuses("7 before 8", list, 7, OPENED);
}

fn length_and_first(to: &mut Cases) {
    let list = List::default().bytes(&record(FRAMES, &[0; 3]));
    to.refuses("8 before 9", list, 8, 0);
    let list = open(1).bytes(&record(OPEN, &[200; 73]));
    to.refuses("8 before 9, an open later", list, 8, OPENED);
    let list = open(1).bytes(&record(TRIGGER, &[200, 200, 200]));
    to.refuses("8 before 10 and 2", list, 8, OPENED);
    let list = List::default().bytes(&record(TRIGGER, &[0, 9]));
    to.refuses("9 before 10, a trigger", list, 9, 0);
    for event in [Event::Settings(9, LONG), Event::SettingsForAll(LONG)] {
        let list = List::default().bytes(&coded(event));
        to.refuses(&format!("9 before 10, tag {}", event.tag()), list, 9, 0);
    }
    let again = Event::Open(255, fast(), LONG);
    let list = open(1).bytes(&coded(again));
    to.refuses("9 before 10, an open later", list, 9, OPENED);
    to.refuses("9 before 1", open(1).then(again), 9, OPENED);
    let list = List::default().then(Event::Timing(fast()));
    to.refuses("9 before 4", list, 9, 0);
    let list = List::default().then(Event::Release(200));
    to.refuses("9 before 2", list, 9, 0);
    to.refuses("9 before 11", List::default().frames(u32::MAX), 9, 0);
}

fn codes_and_calls(to: &mut Cases) {
    let list = List::default().bytes(&coded(Event::Open(65, fast(), LONG)));
    to.refuses("10 before 1", list, 10, 0);
    let list = List::default().bytes(&coded(Event::Open(1, fast(), LONG)));
    to.refuses("10 before 4", list, 10, 0);
    let list = open(1).bytes(&coded(Event::Settings(1, LONG)));
    to.refuses("10 before 2", list, 10, OPENED);
    let list = open(1).bytes(&coded(Event::SettingsForAll(LONG)));
    to.refuses("10 before 3", list, 10, OPENED);
    let list = open(1).bytes(&record(TRIGGER, &[1, 3]));
    to.refuses("10 before 2, a trigger", list, 10, OPENED);
    let opens =
        |voices, timing, settings| List::default().then(Event::Open(voices, timing, settings));
    to.refuses("1 before 4 and 3", opens(65, fast(), LONG), 1, 0);
    to.refuses("4 before 3", opens(64, fast(), LONG), 4, 0);
    to.refuses("3 alone", opens(64, RATE_1000, LONG), 3, 0);
    let list = open(1).then(Event::Settings(1, LONG));
    to.refuses("2 before 3", list, 2, OPENED);
}

/// What is wrong in two records is told of the first.
fn records(to: &mut Cases) {
    let list = open(1).frames(1000).bytes(&[0]);
    to.refuses("11 and then 6", list, 11, OPENED);
    let list = open(1).then(Event::Release(1)).frames(1000);
    to.refuses("2 and then 11", list, 2, OPENED);
    let list = open(255).frames(1000);
    to.refuses("1 and then 11", list, 1, 0);
    // The refused record stands behind frames that were not played.
    let list = open(2).note(0).frames(2).then(Event::Reset(2));
    to.add("nothing is played", list, 2 * FRAME, (-2, OPENED + 12));
    let list = open(2).note(0).frames(2).bytes(&[FRAMES, 4]);
    to.add("nothing is played, 6", list, 9 * FRAME, (-6, OPENED + 12));
}
