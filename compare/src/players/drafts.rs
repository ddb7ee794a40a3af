//! A list that is accepted, as it grows event by event beside the Rust's bank,
//! so that an event can follow from where the voices stand.

use crate::banks::calls::Call;
use crate::players::checks::refusal;
use crate::players::records::Event;
use crate::players::reference::apply;
use crate::reference::ACCEPTED;
use crate::rust::envelope::{EnvelopeBank, EnvelopeParams, Timing};
use crate::simd::Level;

/// A list without refused events.
pub struct Draft {
    events: Vec<Event>,
    bank: EnvelopeBank,
    levels: usize,
    buffer: Vec<f32>,
}

impl Draft {
    /// A list that opens a bank of at most 64 voices.
    ///
    /// # Panics
    ///
    /// The opening is refused.
    #[must_use]
    pub fn open(voices: u8, timing: Timing, settings: EnvelopeParams) -> Self {
        let opening = Event::Open(voices, timing, settings);
        assert_eq!(refusal(0, &opening), ACCEPTED, "the opening is refused");
        Self {
            events: vec![opening],
            bank: EnvelopeBank::new(voices.into(), settings, timing),
            levels: 0,
            buffer: Vec::new(),
        }
    }

    /// The next event, unless it is an opening or refused.
    ///
    /// # Panics
    ///
    /// Never, since the portable level is there on any machine.
    pub fn push(&mut self, event: Event) {
        let voices = self.bank.voices() as u8;
        if matches!(event, Event::Open(..)) || refusal(voices, &event) != ACCEPTED {
            return;
        }
        if let Event::Frames(count) = event {
            let levels = count as usize * self.bank.stride();
            self.buffer.resize(levels, 0.0);
            let drawn = self.bank.process_at(Level::Portable, &mut self.buffer);
            assert!(drawn, "the portable level is not there");
            self.levels += levels;
        } else {
            apply(&mut self.bank, &event);
        }
        self.events.push(event);
    }

    /// The Rust's bank as the events so far leave it.
    #[must_use]
    pub fn bank(&self) -> &EnvelopeBank {
        &self.bank
    }

    /// The levels that were handed out so far.
    #[must_use]
    pub fn levels(&self) -> usize {
        self.levels
    }

    /// The records so far.
    #[must_use]
    pub fn records(&self) -> Vec<Vec<u8>> {
        self.events.iter().map(Event::record).collect()
    }

    /// The event of a call on the bank as it stands, if one record can say it.
    #[must_use]
    pub fn event(&self, call: &Call) -> Option<Event> {
        let byte = |number: u64| u8::try_from(number).ok();
        Some(match *call {
            Call::Open(voices, settings, timing) => Event::Open(byte(voices)?, timing, settings),
            Call::Settings(voice, settings) => Event::Settings(byte(voice)?, settings),
            Call::SettingsForAll(settings) => Event::SettingsForAll(settings),
            Call::Timing(timing) => Event::Timing(timing),
            Call::Trigger(voice, trigger) => Event::Trigger(byte(voice)?, trigger),
            Call::Release(voice) => Event::Release(byte(voice)?),
            Call::Reset(voice) => Event::Reset(byte(voice)?),
            Call::Join(voice, from) => Event::Join(byte(voice)?, byte(from)?),
            Call::Process(levels) => Event::Frames(levels / self.bank.stride() as u32),
            Call::Read(_) | Call::Chord(..) => return None,
        })
    }
}

#[cfg(test)]
mod tests {
    use super::*;
    use crate::fixed::{RATE_1000, SAMPLE};
    use crate::players::checks::check;

    #[test]
    fn holds_nothing_refused() {
        let mut draft = Draft::open(17, RATE_1000, SAMPLE);
        for event in [
            Event::Release(17),
            Event::Open(1, RATE_1000, SAMPLE),
            Event::Frames(3),
            Event::Reset(16),
        ] {
            draft.push(event);
        }
        assert_eq!((draft.records().len(), draft.levels()), (3, 96));
        assert_eq!(check(&draft.records().concat(), 4 * 96), Ok(3));
    }
}
