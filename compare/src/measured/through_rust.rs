//! A bank of the crate of hosts/rust, in loops of a Rust host.

use worfelli::{EnvelopeBank, Refusal, Trigger};

use crate::live::through_rust::{clock, kind, params, stage};
use crate::measured::asked::{Chord, Kind, Opening, Query, Sound};
use crate::measured::{Measured, after, turn, turns};

impl Measured for EnvelopeBank {
    fn opened(opening: Opening) -> Self {
        let Opening { sound, voices, .. } = opening;
        let (settings, timing) = (params(&sound.settings()), clock(sound.timing()));
        Self::new(voices, settings, timing).expect("an opening")
    }

    #[inline(never)]
    fn calls(&mut self, sound: Sound, kind: Kind, calls: u32) {
        let sound = CrateSound {
            settings: params(&sound.settings()),
            other_settings: params(&sound.other_settings()),
            timing: clock(sound.timing()),
            other_timing: clock(sound.other_timing()),
        };
        let voices = self.voices();
        for voice in turns(voices, calls) {
            call(self, &sound, kind, voice, voices).expect("a call");
        }
    }

    #[inline(never)]
    fn chords(&mut self, _: Sound, chord: Chord, chords: u32) {
        let turn = turn();
        let in_turn = turn[..self.voices()].chunks_exact(chord.voices).cycle();
        for voices in in_turn.take(chords as usize) {
            self.chord(voices, kind(chord.trigger)).expect("a chord");
        }
    }

    #[inline(never)]
    fn blocks(&mut self, out: &mut [f32], blocks: u32) {
        for _ in 0..blocks {
            self.process(out).expect("a block");
        }
    }

    #[inline(never)]
    fn readings(&self, query: Query, times: u32) -> u64 {
        let read = |voice| read(self, query, voice).expect("a reading");
        let voices = turns(self.voices(), times);
        voices.fold(0, |sum: u64, voice| sum.wrapping_add(read(voice)))
    }
}

/// What the loops over the crate make calls with.
struct CrateSound {
    settings: worfelli::EnvelopeParams,
    other_settings: worfelli::EnvelopeParams,
    timing: worfelli::Timing,
    other_timing: worfelli::Timing,
}

#[inline(always)]
fn call(
    bank: &mut EnvelopeBank,
    sound: &CrateSound,
    kind: Kind,
    voice: usize,
    voices: usize,
) -> Result<(), Refusal> {
    match kind {
        Kind::Trigger => bank.trigger(voice, Trigger::New),
        Kind::Release => {
            bank.trigger(voice, Trigger::New)?;
            bank.release(voice)
        }
        Kind::Settings => bank.set_params(voice, sound.settings),
        Kind::OtherSettings => {
            bank.set_params(voice, sound.other_settings)?;
            bank.set_params(voice, sound.settings)
        }
        Kind::Reset => bank.reset(voice),
        Kind::Retrigger => bank.trigger(voice, Trigger::Retrigger),
        Kind::Legato => bank.trigger(voice, Trigger::Legato),
        Kind::Join => bank.join(voice, after(voice, voices)),
        Kind::AllSettings => bank.set_all_params(sound.settings),
        Kind::AllOtherSettings => {
            bank.set_all_params(sound.other_settings)?;
            bank.set_all_params(sound.settings)
        }
        Kind::Timing => bank.set_timing(sound.timing),
        Kind::OtherTiming => {
            bank.set_timing(sound.other_timing)?;
            bank.set_timing(sound.timing)
        }
    }
}

#[inline(always)]
fn read(bank: &EnvelopeBank, query: Query, voice: usize) -> Result<u64, Refusal> {
    Ok(match query {
        Query::Params => bank.params(voice)?.decay.to_bits().into(),
        Query::Stage => stage(bank.stage(voice)?).into(),
        Query::Level => bank.level(voice)?.to_bits().into(),
        Query::Idle => bank.is_idle(voice)?.into(),
        Query::Tail => bank.tail(voice)?,
        Query::Lead => bank.lead(voice)?,
        Query::Voices => bank.voices() as u64,
        Query::Stride => bank.stride() as u64,
    })
}
