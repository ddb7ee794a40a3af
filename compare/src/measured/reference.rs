//! The Rust's own bank, in the same loops.

use crate::calls::stage_number;
use crate::measured::asked::{Kind, Opening, Query, Sound};
use crate::measured::{Measured, after, turns};
use crate::reference::{lead, tail};
use crate::rust::envelope::{EnvelopeBank, Trigger};

impl Measured for EnvelopeBank {
    fn opened(opening: Opening) -> Self {
        let Opening { sound, voices, .. } = opening;
        Self::new(voices, sound.settings(), sound.timing())
    }

    #[inline(never)]
    fn calls(&mut self, sound: Sound, kind: Kind, calls: u32) {
        for voice in turns(self.voices(), calls) {
            call(self, sound, kind, voice);
        }
    }

    #[inline(never)]
    fn blocks(&mut self, out: &mut [f32], blocks: u32) {
        for _ in 0..blocks {
            self.process(out);
        }
    }

    #[inline(never)]
    fn readings(&self, query: Query, times: u32) -> u64 {
        turns(self.voices(), times).fold(0, |sum: u64, voice| {
            sum.wrapping_add(read(self, query, voice))
        })
    }
}

#[inline(always)]
fn call(bank: &mut EnvelopeBank, sound: Sound, kind: Kind, voice: usize) {
    match kind {
        Kind::Trigger => bank.trigger(voice, Trigger::New),
        Kind::Release => {
            bank.trigger(voice, Trigger::New);
            bank.release(voice);
        }
        Kind::Settings => bank.set_params(voice, sound.settings()),
        Kind::OtherSettings => {
            bank.set_params(voice, sound.other_settings());
            bank.set_params(voice, sound.settings());
        }
        Kind::Reset => bank.reset(voice),
        Kind::Retrigger => bank.trigger(voice, Trigger::Retrigger),
        Kind::Legato => bank.trigger(voice, Trigger::Legato),
        Kind::Join => bank.join(voice, after(voice, bank.voices())),
        Kind::AllSettings => bank.set_all_params(sound.settings()),
        Kind::AllOtherSettings => {
            bank.set_all_params(sound.other_settings());
            bank.set_all_params(sound.settings());
        }
        Kind::Timing => bank.set_timing(sound.timing()),
        Kind::OtherTiming => {
            bank.set_timing(sound.other_timing());
            bank.set_timing(sound.timing());
        }
    }
}

/// Tail and lead are not the Rust's, but the reference's.
#[inline(always)]
fn read(bank: &EnvelopeBank, query: Query, voice: usize) -> u64 {
    match query {
        Query::Params => bank.params(voice).decay.to_bits().into(),
        Query::Stage => stage_number(bank.stage(voice)).into(),
        Query::Level => bank.level(voice).to_bits().into(),
        Query::Idle => bank.is_idle(voice).into(),
        Query::Tail => tail(&bank.voice(voice)),
        Query::Lead => lead(&bank.voice(voice)),
        Query::Voices => bank.voices() as u64,
        Query::Stride => bank.stride() as u64,
    }
}
