//! Random chords: lists of voices that a bank accepts, and damaged ones.

use super::{Plan, no_voice};
use crate::banks::calls::{Call, MOST_ENTRIES};
use crate::banks::refusals::MOST;
use crate::calls::TRIGGERS;
use crate::random::Random;
use crate::rust::envelope::EnvelopeBank;

/// A chord on the bank, of a damaged call one that mostly is refused.
pub(super) fn chord(random: &mut Random, plan: Plan, bank: &EnvelopeBank) -> Call {
    let voices = bank.voices() as u64;
    let mut named = some(random, voices);
    if random.below(plan.damaged) == 0 {
        damage(random, voices, &mut named);
    }
    named.truncate(MOST_ENTRIES);
    Call::Chord(named, random.choose(&TRIGGERS))
}

/// Some of the voices in any order: none, one, a few, any number or all.
fn some(random: &mut Random, voices: u64) -> Vec<u64> {
    let mut named: Vec<u64> = (0..voices).collect();
    for last in (1..named.len()).rev() {
        named.swap(last, random.below(last as u64 + 1) as usize);
    }
    let count = match random.below(8) {
        0 => 0,
        1 => 1,
        2..5 => 2 + random.below(4),
        5 | 6 => random.below(voices + 1),
        _ => voices,
    };
    named.truncate(count as usize);
    named
}

/// Damages a list of voices in one way, or in two.
fn damage(random: &mut Random, voices: u64, named: &mut Vec<u64>) {
    match random.below(10) {
        0..2 => repeat(random, named),
        2..5 => miss(random, voices, named),
        5 => {
            miss(random, voices, named);
            repeat(random, named);
        }
        6 | 7 => {
            let voice = no_voice(random, voices);
            put(random, named, voice);
            put(random, named, voice);
        }
        8 => lengthen(random, named),
        _ => {
            lengthen(random, named);
            miss(random, voices, named);
        }
    }
}

/// One of the voices once more.
fn repeat(random: &mut Random, named: &mut Vec<u64>) {
    if !named.is_empty() {
        let voice = random.choose(named);
        put(random, named, voice);
    }
}

/// A voice that mostly is missing.
fn miss(random: &mut Random, voices: u64, named: &mut Vec<u64>) {
    let voice = no_voice(random, voices);
    put(random, named, voice);
}

/// Distinct numbers, mostly one more than a chord may have.
fn lengthen(random: &mut Random, named: &mut Vec<u64>) {
    let length = match random.below(4) {
        0 => MOST + random.below(MOST_ENTRIES as u64 - MOST + 1),
        _ => MOST + 1,
    };
    let first = if random.coin() { 0 } else { random.bits() >> 1 };
    *named = (first..first + length).collect();
}

/// Puts a number to the front, to the end or between.
fn put(random: &mut Random, named: &mut Vec<u64>, voice: u64) {
    let end = named.len();
    let at = match random.below(4) {
        0 => 0,
        1 => end,
        _ => random.below(end as u64 + 1) as usize,
    };
    named.insert(at, voice);
}
