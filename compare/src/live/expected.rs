//! What the Rust says to each call of a list, and of every voice after it.

use crate::banks::calls::{Call, READING};
use crate::banks::lists::Step;
use crate::banks::reference::{apply, reading, refused};
use crate::banks::refusals::refusal;
use crate::rust::envelope::EnvelopeBank;

/// The Rust's bank as the calls so far leave it.
pub struct Expecting {
    bank: EnvelopeBank,
    levels: Vec<f32>,
    /// The readings of each voice and of the one past the last, after a call
    /// that isn't a reading itself.
    readings: Vec<[u8; READING]>,
}

/// What is expected of one call.
#[derive(Clone, Copy)]
pub struct Expected<'a> {
    pub step: &'a Step,
    /// What the output holds after it.
    pub levels: &'a [f32],
    pub readings: &'a [[u8; READING]],
}

impl Default for Expecting {
    fn default() -> Self {
        Self {
            bank: refused(),
            levels: Vec::new(),
            readings: Vec::new(),
        }
    }
}

impl Expecting {
    #[must_use]
    pub fn voices(&self) -> u64 {
        self.bank.voices() as u64
    }

    /// The next call of a list, whose answer is known, with the levels of its
    /// output.
    pub fn next<'a>(&'a mut self, step: &'a Step, levels: &'a [f32]) -> Expected<'a> {
        self.levels.clear();
        apply(&mut self.bank, &step.call, step.refusal, &mut self.levels);
        self.readings.clear();
        if step.readings.is_none() {
            let (bank, voices) = (&self.bank, self.bank.voices() as u64);
            let read = |voice| reading(bank, voice, refusal(voices, &Call::Read(voice))).bytes();
            self.readings.extend((0..=voices).map(read));
        }
        Expected {
            step,
            levels,
            readings: &self.readings,
        }
    }
}
