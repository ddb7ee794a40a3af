//! A bank that is called through the Rust crate, which goes on as a clone or
//! from its bytes now and then.

use worfelli::{
    EnvelopeBank, EnvelopeParams, Refusal, Stage, StealRestart, TimeUnit, Timing, Trigger,
};

use crate::banks::calls::{Call, Reading};
use crate::calls::Settings;
use crate::live::hosts::Host;
use crate::reference::ACCEPTED;
use crate::rust::envelope;

/// The bank.
pub struct ThroughRust {
    bank: EnvelopeBank,
    calls: u64,
}

impl ThroughRust {
    /// The bank of no voices.
    ///
    /// # Errors
    ///
    /// The crate refuses to make one.
    pub fn new() -> Result<Self, String> {
        Ok(Self {
            bank: none().map_err(|refusal| format!("the crate refuses no voices: {refusal}"))?,
            calls: 0,
        })
    }

    /// Every fourth call is made on a clone, every fourth on the bank of its
    /// bytes.
    fn go_on(&mut self) {
        self.calls += 1;
        match self.calls % 4 {
            0 => self.bank = self.bank.clone(),
            2 => {
                if let Ok(bank) = EnvelopeBank::from_bytes(self.bank.as_bytes()) {
                    self.bank = bank;
                }
            }
            _ => {}
        }
    }

    /// A new bank in place of the old one; of a refused one there is none, but
    /// by document 01 it would be that of no voices.
    fn open(&mut self, opened: Result<EnvelopeBank, Refusal>) -> Result<(), Refusal> {
        match opened {
            Ok(bank) => {
                self.bank = bank;
                Ok(())
            }
            Err(refusal) => {
                self.bank = none()?;
                Err(refusal)
            }
        }
    }
}

fn none() -> Result<EnvelopeBank, Refusal> {
    EnvelopeBank::new(0, EnvelopeParams::AMP, Timing::new(0.0))
}

impl Host for ThroughRust {
    const NAME: &'static str = "Rust crate";

    type State = Vec<u8>;

    fn begin(&mut self) {}

    fn call(&mut self, call: &Call, out: &mut [f32]) -> u32 {
        self.go_on();
        let bank = &mut self.bank;
        number(match *call {
            Call::Open(voices, settings, timing) => {
                let (settings, timing) = (params(&settings), clock(timing));
                self.open(EnvelopeBank::new(voices as usize, settings, timing))
            }
            Call::Settings(voice, settings) => bank.set_params(voice as usize, params(&settings)),
            Call::SettingsForAll(settings) => bank.set_all_params(params(&settings)),
            Call::Timing(timing) => bank.set_timing(clock(timing)),
            Call::Trigger(voice, trigger) => bank.trigger(voice as usize, kind(trigger)),
            Call::Chord(ref voices, trigger) => {
                let voices: Vec<usize> = voices.iter().map(|voice| *voice as usize).collect();
                bank.chord(&voices, kind(trigger))
            }
            Call::Release(voice) => bank.release(voice as usize),
            Call::Reset(voice) => bank.reset(voice as usize),
            Call::Join(voice, from) => bank.join(voice as usize, from as usize),
            Call::Process(_) => bank.process(out),
            Call::Read(_) => Ok(()),
        })
    }

    fn reading(&mut self, voice: u64) -> Reading {
        let (bank, voice) = (&self.bank, voice as usize);
        let (voices, stride) = (bank.voices() as u64, bank.stride() as u64);
        let mut reading = Reading::refused(ACCEPTED, voices, stride);
        let reply = &mut reading.reply;
        reply.refusal = put(
            bank.params(voice).map(|p| Settings::from(&derived(p))),
            &mut reply.settings,
        );
        reading.refusals = [
            put(bank.stage(voice).map(stage), &mut reply.stage),
            put(bank.is_idle(voice).map(u32::from), &mut reply.idle),
            put(bank.level(voice), &mut reply.level),
            put(bank.tail(voice), &mut reply.tail),
            put(bank.lead(voice), &mut reply.lead),
        ];
        reading
    }

    fn state(&mut self) -> Vec<u8> {
        self.bank.as_bytes().to_vec()
    }
}

/// The number of an answer.
fn number(answer: Result<(), Refusal>) -> u32 {
    answer.map_or_else(|refusal| refusal.number().into(), |()| ACCEPTED)
}

/// Writes what was read, and answers the number.
fn put<T>(read: Result<T, Refusal>, to: &mut T) -> u32 {
    number(read.map(|value| *to = value))
}

/// The crate's settings of the Rust's.
#[must_use]
pub fn params(p: &envelope::EnvelopeParams) -> EnvelopeParams {
    EnvelopeParams {
        unit: match p.unit {
            envelope::TimeUnit::Milliseconds => TimeUnit::Milliseconds,
            envelope::TimeUnit::Tempo => TimeUnit::Tempo,
        },
        delay: p.delay,
        attack: p.attack,
        hold: p.hold,
        decay: p.decay,
        sustain: p.sustain,
        release: p.release,
        attack_curve: p.attack_curve,
        decay_curve: p.decay_curve,
        release_curve: p.release_curve,
        start: p.start,
        end: p.end,
        legato_inverted: p.legato_inverted,
        steal_restart: match p.steal_restart {
            envelope::StealRestart::CurrentLevel => StealRestart::CurrentLevel,
            envelope::StealRestart::StartLevel => StealRestart::StartLevel,
        },
    }
}

/// The Rust's settings of the crate's.
fn derived(p: EnvelopeParams) -> envelope::EnvelopeParams {
    envelope::EnvelopeParams {
        unit: match p.unit {
            TimeUnit::Milliseconds => envelope::TimeUnit::Milliseconds,
            TimeUnit::Tempo => envelope::TimeUnit::Tempo,
        },
        delay: p.delay,
        attack: p.attack,
        hold: p.hold,
        decay: p.decay,
        sustain: p.sustain,
        release: p.release,
        attack_curve: p.attack_curve,
        decay_curve: p.decay_curve,
        release_curve: p.release_curve,
        start: p.start,
        end: p.end,
        legato_inverted: p.legato_inverted,
        steal_restart: match p.steal_restart {
            StealRestart::CurrentLevel => envelope::StealRestart::CurrentLevel,
            StealRestart::StartLevel => envelope::StealRestart::StartLevel,
        },
    }
}

/// The crate's timing of the Rust's.
#[must_use]
pub fn clock(timing: envelope::Timing) -> Timing {
    Timing {
        sample_rate: timing.sample_rate,
        tempo: timing.tempo,
        scale: timing.scale,
    }
}

/// The crate's kind of trigger of the Rust's.
#[must_use]
pub fn kind(trigger: envelope::Trigger) -> Trigger {
    match trigger {
        envelope::Trigger::New => Trigger::New,
        envelope::Trigger::Retrigger => Trigger::Retrigger,
        envelope::Trigger::Legato => Trigger::Legato,
    }
}

/// The number of a stage, as document 01 orders them.
#[must_use]
pub fn stage(stage: Stage) -> u32 {
    match stage {
        Stage::Idle => 0,
        Stage::Delay => 1,
        Stage::Attack => 2,
        Stage::Hold => 3,
        Stage::Decay => 4,
        Stage::Sustain => 5,
        Stage::Release => 6,
    }
}
