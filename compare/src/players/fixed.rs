//! Fixed lists, each about one thing that is easily got wrong, with the answer
//! as document 01 has it: the frames, or the refusal's number and place. None
//! can go stale, since the reference has to answer the same.

mod numbers;
mod orders;
mod outputs;
mod played;
mod refused;
mod sweeps;

use crate::fixed::{RATE_1000, SAMPLE};
use crate::players::records::Event;
use crate::players::{Case, reference};
use crate::rust::envelope::{EnvelopeParams, Trigger};

/// The bytes of an open's record.
const OPENED: usize = 75;

/// The bytes of a frame of at most 16 voices.
const FRAME: usize = 64;

/// All cases, document 01's sample list first.
///
/// # Errors
///
/// The reference doesn't answer one of them as expected.
pub fn cases() -> Result<Vec<Case>, String> {
    let mut cases = Cases::default();
    played::cases(&mut cases);
    outputs::cases(&mut cases);
    numbers::cases(&mut cases);
    refused::cases(&mut cases);
    orders::cases(&mut cases);
    match cases.wrong {
        Some(wrong) => Err(wrong),
        None => Ok(cases.cases),
    }
}

/// Lists with every value of what decides something, whose answers only the
/// reference has.
#[must_use]
pub fn sweeps() -> Vec<Case> {
    let mut cases = Cases::default();
    sweeps::cases(&mut cases);
    cases.cases
}

/// The cases so far, and the first that the reference answers otherwise.
#[derive(Default)]
struct Cases {
    cases: Vec<Case>,
    wrong: Option<String>,
}

impl Cases {
    /// A list that is played: so many frames.
    fn plays(&mut self, name: &str, list: List, out_len: usize, frames: i64) {
        let end = list.0.len();
        self.add(name, list, out_len, (frames, end));
    }

    /// A list of which the record at a place is refused, with an output of two
    /// frames.
    fn refuses(&mut self, name: &str, list: List, number: i64, at: usize) {
        self.add(name, list, 2 * FRAME, (-number, at));
    }

    fn add(&mut self, name: &str, list: List, out_len: usize, expected: (i64, usize)) {
        let result = reference::play(&list.0, &mut vec![0; out_len]);
        let place = reference::refused_at(&list.0, out_len) as usize;
        if (result, place) != expected && self.wrong.is_none() {
            self.wrong = Some(format!(
                "case {name:?}: the Rust answers {result} at {place}"
            ));
        }
        self.any(name, list, out_len);
    }

    /// A list with any answer.
    fn any(&mut self, name: &str, list: List, out_len: usize) {
        self.cases.push(Case {
            name: format!("case {name:?}"),
            list: list.0,
            out_len,
        });
    }
}

/// A list as it grows.
#[derive(Clone, Default)]
struct List(Vec<u8>);

/// A list that opens so many voices of document 01's sample list.
fn open(voices: u8) -> List {
    List::default().then(Event::Open(voices, RATE_1000, SAMPLE))
}

/// The same with these settings.
fn open_with(voices: u8, settings: EnvelopeParams) -> List {
    List::default().then(Event::Open(voices, RATE_1000, settings))
}

impl List {
    fn then(mut self, event: Event) -> Self {
        self.0.extend(event.record());
        self
    }

    fn note(self, voice: u8) -> Self {
        self.then(Event::Trigger(voice, Trigger::New))
    }

    fn frames(self, count: u32) -> Self {
        self.then(Event::Frames(count))
    }

    /// Any bytes.
    fn bytes(mut self, bytes: &[u8]) -> Self {
        self.0.extend(bytes);
        self
    }
}

/// Each kind of event but the open, on a bank of 3 voices.
fn others() -> [Event; 8] {
    [
        Event::Settings(1, SAMPLE),
        Event::SettingsForAll(SAMPLE),
        Event::Timing(RATE_1000),
        Event::Trigger(1, Trigger::New),
        Event::Release(1),
        Event::Reset(1),
        Event::Join(1, 2),
        Event::Frames(1),
    ]
}

#[cfg(test)]
mod tests {
    use super::*;

    #[test]
    fn each_is_answered_as_expected() {
        assert_eq!(open(3).0.len(), OPENED);
        assert!(cases().unwrap().len() > 200);
    }
}
