//! The derived Rust's bank, with what document 01 adds to it. Every lane is
//! drawn by the formula: `build/table.rs` takes the shortcut for a still group
//! out, which would answer a base of -0 itself.

use crate::banks::calls::{Call, Reading, before};
use crate::banks::refusals::stride;
use crate::calls::{Reply, Settings, stage_number};
use crate::reference::{ACCEPTED, lead, reply_of, tail};
use crate::rust::envelope::{Envelope, EnvelopeBank, EnvelopeParams, Timing};
use crate::simd::Level;

/// The bank that a refused opening leaves.
#[must_use]
pub fn refused() -> EnvelopeBank {
    EnvelopeBank::new(0, EnvelopeParams::AMP, Timing::new(0.0))
}

/// `call`, which was answered with `refusal`. A process puts its output at the
/// end of `levels`, as it was before if it is refused.
///
/// # Panics
///
/// Never, since the portable level is there on any machine.
pub fn apply(bank: &mut EnvelopeBank, call: &Call, refusal: u32, levels: &mut Vec<f32>) {
    let first = levels.len();
    levels.extend((0..call.levels()).map(before));
    match *call {
        Call::Open(..) if refusal != ACCEPTED => *bank = refused(),
        _ if refusal != ACCEPTED => {}
        Call::Open(voices, settings, timing) => {
            *bank = EnvelopeBank::new(voices as usize, settings, timing);
        }
        Call::Settings(voice, settings) => bank.set_params(voice as usize, settings),
        Call::SettingsForAll(settings) => bank.set_all_params(settings),
        Call::Timing(timing) => bank.set_timing(timing),
        Call::Trigger(voice, trigger) => bank.trigger(voice as usize, trigger),
        Call::Release(voice) => bank.release(voice as usize),
        Call::Reset(voice) => bank.reset(voice as usize),
        Call::Join(voice, from) => bank.join(voice as usize, from as usize),
        Call::Chord(ref voices, trigger) => {
            for voice in voices {
                bank.trigger(*voice as usize, trigger);
            }
        }
        Call::Process(_) => {
            let drawn = bank.process_at(Level::Portable, &mut levels[first..]);
            assert!(drawn, "the portable level is not there");
        }
        Call::Read(_) => {}
    }
}

/// What the bank itself says of a voice, if it isn't refused.
#[must_use]
pub fn reading(bank: &EnvelopeBank, voice: u64, refusal: u32) -> Reading {
    let (voices, stride) = (bank.voices() as u64, bank.stride() as u64);
    if refusal != ACCEPTED {
        return Reading::refused(refusal, voices, stride);
    }
    let voice = voice as usize;
    let alone = bank.voice(voice);
    let reply = Reply {
        refusal,
        settings: Settings::from(bank.params(voice)),
        stage: stage_number(bank.stage(voice)),
        idle: bank.is_idle(voice).into(),
        level: bank.level(voice),
        tail: tail(&alone),
        lead: lead(&alone),
    };
    Reading::of(reply, voices, stride)
}

/// What is said of a voice whose history leaves `envelope`, or of one that is
/// refused, in a bank of so many voices.
#[must_use]
pub fn reading_of(envelope: Option<&Envelope>, voices: u64, refusal: u32) -> Reading {
    match envelope {
        Some(envelope) => Reading::of(reply_of(refusal, envelope), voices, stride(voices)),
        None => Reading::refused(refusal, voices, stride(voices)),
    }
}
