//! A bank that is called through the header's functions, half of its chords by
//! `worfelli_live_chord`. It lies at an unmapped page, as the list of a chord does,
//! so that no call can read or write past the ends, and is copied elsewhere now and
//! then: a copy has to go on as the bank would have.

use crate::banks::calls::{Call, MOST_ENTRIES, Reading};
use crate::calls::{Reply, Settings};
use crate::live::coded::Coded;
use crate::live::functions::{BYTES, Functions, LiveBank};
use crate::live::hosts::{Codes, Host};
use crate::players::memory::{Guarded, Side, sizes};
use crate::random::Random;
use crate::reference::ACCEPTED;

/// A bank is copied before one call in so many.
const COPIED: u64 = 8;

/// What readings are written over: no reading answers with any of it.
const BEFORE: Reply = marked(77, -7.5);

/// The answer of a refused reading that wrote something.
const WROTE: Reply = marked(99, -9.5);

const fn marked(number: u32, level: f32) -> Reply {
    Reply {
        refusal: number,
        settings: Settings {
            unit: number,
            numbers: [level; 11],
            legato_inverted: number,
            restart: number,
        },
        stage: number,
        idle: number,
        level,
        tail: number as u64,
        lead: number as u64,
    }
}

/// The bank, in one of two places, and the list of a chord.
pub struct ThroughC {
    memories: [Guarded; 2],
    entries: Entries,
    at: usize,
    side: Side,
    random: Random,
    /// How often it was copied, opened over any bytes, and accepted a chord by
    /// `worfelli_live_chord`.
    pub copies: u64,
    pub over_any_bytes: u64,
    pub live_chords: u64,
}

impl ThroughC {
    /// A bank of zeros, to be opened.
    ///
    /// # Errors
    ///
    /// There is no memory for it. The message is one line.
    pub fn new(seed: u64) -> Result<Self, String> {
        Ok(Self {
            memories: [Guarded::new(BYTES)?, Guarded::new(BYTES)?],
            entries: Entries::new()?,
            at: 0,
            side: Side::End,
            random: Random::named(seed, "copies"),
            copies: 0,
            over_any_bytes: 0,
            live_chords: 0,
        })
    }

    pub fn bank(&mut self) -> &mut LiveBank {
        self.parts().0
    }

    fn parts(&mut self) -> (&mut LiveBank, &mut Entries) {
        let (bank, _) = self.memories[self.at].part(self.side, BYTES);
        (LiveBank::of(bank), &mut self.entries)
    }

    /// Copies the bank to the other place, and leaves nothing of it behind. The
    /// list of a chord is on the side on which the bank is.
    fn copy(&mut self) {
        let copy = *self.bank();
        self.memories[self.at].all().fill(0xff);
        self.at = 1 - self.at;
        let start = self.random.coin();
        self.side = if start { Side::Start } else { Side::End };
        self.entries.side = self.side;
        *self.bank() = copy;
        self.copies += 1;
    }
}

impl Host for ThroughC {
    const NAME: &'static str = "C";

    type State = Vec<u8>;

    /// Half of the lists are opened over what the last one left, half over any
    /// bytes.
    fn begin(&mut self) {
        if self.random.coin() {
            self.over_any_bytes += 1;
            put_any_bytes(&mut self.random, &mut self.memories[self.at]);
        }
    }

    fn call(&mut self, call: &Call, out: &mut [f32]) -> u32 {
        if self.random.below(COPIED) == 0 {
            self.copy();
        }
        match Coded::of(call) {
            Some(coded) => self.coded(&coded),
            None => {
                let (bank, entries) = self.parts();
                self::call(bank, entries, call, out)
            }
        }
    }

    fn reading(&mut self, voice: u64) -> Reading {
        reading(self.bank(), voice as usize)
    }

    fn state(&mut self) -> Vec<u8> {
        self.bank().bytes().to_vec()
    }
}

impl Codes for ThroughC {
    /// A chord has two names: half of them are made by each.
    fn coded(&mut self, coded: &Coded) -> u32 {
        match coded {
            Coded::Chord(voices, kind) if self.random.coin() => {
                let (bank, entries) = self.parts();
                let answer = bank.live_chord(entries.list(voices), *kind);
                self.live_chords += u64::from(answer == ACCEPTED);
                answer
            }
            _ => {
                let (bank, entries) = self.parts();
                self::coded(bank, entries, coded)
            }
        }
    }
}

/// Where the list of a chord lies: at an unmapped page.
pub struct Entries {
    memory: Guarded,
    pub side: Side,
}

impl Entries {
    /// Memory for the longest list.
    ///
    /// # Errors
    ///
    /// There is none. The message is one line.
    pub fn new() -> Result<Self, String> {
        Ok(Self {
            memory: Guarded::new(size_of::<usize>() * MOST_ENTRIES)?,
            side: Side::End,
        })
    }

    fn list(&mut self, voices: &[u64]) -> &[usize] {
        let bytes = size_of::<usize>() * voices.len();
        let entries = sizes(self.memory.part(self.side, bytes).0);
        for (entry, voice) in entries.iter_mut().zip(voices) {
            *entry = *voice as usize;
        }
        entries
    }
}

/// Any bytes in all of the memory.
pub fn put_any_bytes(random: &mut Random, memory: &mut Guarded) {
    for bytes in memory.all().chunks_exact_mut(8) {
        bytes.copy_from_slice(&random.bits().to_le_bytes());
    }
}

/// A call that is no reading, on a bank that C holds in any way.
pub fn call(bank: &mut impl Functions, entries: &mut Entries, call: &Call, out: &mut [f32]) -> u32 {
    match *call {
        Call::Timing(timing) => bank.set_timing(&timing),
        Call::Release(voice) => bank.release(voice as usize),
        Call::Reset(voice) => bank.reset(voice as usize),
        Call::Join(voice, from) => bank.join(voice as usize, from as usize),
        Call::Process(_) => bank.process(out),
        // All but readings.
        _ => Coded::of(call).map_or(ACCEPTED, |call| coded(bank, entries, &call)),
    }
}

/// A call with any codes.
pub fn coded(bank: &mut impl Functions, entries: &mut Entries, coded: &Coded) -> u32 {
    match coded {
        Coded::Open(voices, settings, timing) => bank.open(*voices as usize, settings, timing),
        Coded::Settings(voice, settings) => bank.set_params(*voice as usize, settings),
        Coded::SettingsForAll(settings) => bank.set_all_params(settings),
        Coded::Trigger(voice, kind) => bank.trigger(*voice as usize, *kind),
        Coded::Chord(voices, kind) => bank.chord(entries.list(voices), *kind),
    }
}

/// What every reading of a voice says.
pub fn reading(bank: &impl Functions, voice: usize) -> Reading {
    let mut reply = BEFORE;
    reply.refusal = bank.params(voice, &mut reply.settings);
    let refusals = [
        bank.stage(voice, &mut reply.stage),
        bank.is_idle(voice, &mut reply.idle),
        bank.level(voice, &mut reply.level),
        bank.tail(voice, &mut reply.tail),
        bank.lead(voice, &mut reply.lead),
    ];
    Reading {
        reply: judged(reply, refusals),
        refusals,
        voices: bank.voices() as u64,
        stride: bank.stride() as u64,
    }
}

/// The reply, where a refused reading is as the Rust's if it left what it
/// would have written to.
fn judged(mut reply: Reply, [stage, idle, level, tail, lead]: [u32; 5]) -> Reply {
    fn judge<T: Copy + PartialEq>(refusal: u32, of: fn(&mut Reply) -> &mut T, reply: &mut Reply) {
        if refusal != ACCEPTED {
            let left = *of(reply) == *of(&mut BEFORE.clone());
            let mut none = Reading::refused(refusal, 0, 0).reply;
            *of(reply) = if left {
                *of(&mut none)
            } else {
                *of(&mut WROTE.clone())
            };
        }
    }
    judge(reply.refusal, |reply| &mut reply.settings, &mut reply);
    judge(stage, |reply| &mut reply.stage, &mut reply);
    judge(idle, |reply| &mut reply.idle, &mut reply);
    judge(level, |reply| &mut reply.level, &mut reply);
    judge(tail, |reply| &mut reply.tail, &mut reply);
    judge(lead, |reply| &mut reply.lead, &mut reply);
    reply
}
