//! Which calls on a bank are refused, by document 01's numbers, of chords by
//! 02's, and read from the calls alone: how many voices there are follows from
//! the opening.

use std::collections::HashSet;

use crate::banks::calls::Call;
use crate::reference::{ACCEPTED, fresh_refusal, rate_refusal, time_refusal};

/// The most voices of a bank, and the most entries of a chord.
pub const MOST: u64 = 64;

/// The refusal of more voices.
pub const VOICES: u32 = 1;
/// The refusal of a voice that there is not.
pub const VOICE: u32 = 2;
/// The refusal of an output that is not whole frames.
pub const FRAMES: u32 = 5;
/// The refusal of a chord that names a voice twice or has more entries.
pub const CHORD: u32 = 12;

/// The levels of a frame of so many voices: a multiple of 16, and at least 16.
#[must_use]
pub fn stride(voices: u64) -> u64 {
    voices.div_ceil(16).max(1) * 16
}

/// The answer to `call` on a bank of so many voices.
#[must_use]
pub fn refusal(voices: u64, call: &Call) -> u32 {
    let voice = |voice| if voice < voices { ACCEPTED } else { VOICE };
    match call {
        Call::Open(asked, ..) if *asked > MOST => VOICES,
        Call::Open(_, settings, timing) => fresh_refusal(settings, timing),
        Call::Settings(changed, settings) => first(voice(*changed), time_refusal(settings)),
        Call::SettingsForAll(settings) => time_refusal(settings),
        Call::Timing(timing) => rate_refusal(timing),
        Call::Trigger(of, _) | Call::Release(of) | Call::Reset(of) | Call::Read(of) => voice(*of),
        Call::Join(changed, from) => first(voice(*changed), voice(*from)),
        Call::Chord(named, _) if named.len() as u64 > MOST || names_twice(named) => CHORD,
        Call::Chord(named, _) => named.iter().map(|of| voice(*of)).fold(ACCEPTED, first),
        Call::Process(levels) if u64::from(*levels) % stride(voices) != 0 => FRAMES,
        Call::Process(_) => ACCEPTED,
    }
}

/// Whether a number stands in the list twice, be there such a voice or not.
fn names_twice(named: &[u64]) -> bool {
    let distinct: HashSet<&u64> = named.iter().collect();
    distinct.len() < named.len()
}

/// The first of two numbers that refuses.
fn first(a: u32, b: u32) -> u32 {
    if a == ACCEPTED { b } else { a }
}

#[cfg(test)]
mod tests {
    use super::*;
    use crate::reference::{LIMIT, RATE, TIME};
    use crate::rust::envelope::{EnvelopeParams, Timing, Trigger};

    #[test]
    fn the_first_whose_condition_holds() {
        let good = EnvelopeParams::AMP;
        let long = EnvelopeParams {
            hold: LIMIT.next_up(),
            ..good
        };
        let fast = Timing::new(f64::from(LIMIT).next_up());
        let slow = Timing::new(1.0);
        let answers = [
            (Call::Open(65, long, fast), VOICES),
            (Call::Open(64, long, fast), RATE),
            (Call::Open(64, long, slow), TIME),
            (Call::Open(64, good, slow), ACCEPTED),
            (Call::Settings(17, long), VOICE),
            (Call::Settings(16, long), TIME),
            (Call::SettingsForAll(long), TIME),
            (Call::Timing(fast), RATE),
            (Call::Trigger(17, Trigger::New), VOICE),
            (Call::Join(16, u64::MAX), VOICE),
            (Call::Join(17, 0), VOICE),
            (Call::Join(16, 16), ACCEPTED),
            (Call::Process(31), FRAMES),
            (Call::Process(64), ACCEPTED),
            (Call::Process(0), ACCEPTED),
        ];
        for (call, expected) in answers {
            assert_eq!(refusal(17, &call), expected, "{}", call.shown());
        }
    }

    #[test]
    fn a_chord_is_tested_by_its_numbers_first() {
        let all: Vec<u64> = (0..64).collect();
        let answers: [(u64, &[u64], u32); 13] = [
            (17, &[], ACCEPTED),
            (0, &[], ACCEPTED),
            (17, &[16, 0, 7], ACCEPTED),
            (64, &all, ACCEPTED),
            (63, &all, VOICE),
            (17, &[17, 0], VOICE),
            (17, &[0, 17, 1], VOICE),
            (17, &[0, u64::MAX], VOICE),
            (17, &[5, 69, 5 + (1 << 32)], VOICE),
            (17, &[3, 0, 3], CHORD),
            (17, &[100, 100], CHORD),
            (17, &[17, 3, 3], CHORD),
            (64, &[all.as_slice(), &[64]].concat(), CHORD),
        ];
        for (voices, named, expected) in answers {
            let call = Call::Chord(named.to_vec(), Trigger::New);
            assert_eq!(refusal(voices, &call), expected, "{}", call.shown());
        }
    }

    #[test]
    fn strides() {
        let strides = [0, 1, 16, 17, 32, 33, 64].map(stride);
        assert_eq!(strides, [16, 16, 16, 32, 32, 48, 64]);
    }
}
