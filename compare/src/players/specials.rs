//! Numbers that are none or nearly none, in the records that hold numbers.

use crate::players::records::{Event, HEAD, settings_at, timing_at};
use crate::random::Random;

/// What is told apart of numbers, each with its bits in both formats.
pub const KINDS: [(&str, u32, u64); 9] = [
    ("a quiet NaN", 0x7fc0_0000, 0x7ff8_0000_0000_0000),
    ("a negative quiet NaN", 0xffc0_0000, 0xfff8_0000_0000_0000),
    ("a signalling NaN", 0x7f80_0001, 0x7ff0_0000_0000_0001),
    (
        "a negative signalling NaN",
        0xff80_0001,
        0xfff0_0000_0000_0001,
    ),
    ("infinity", 0x7f80_0000, 0x7ff0_0000_0000_0000),
    ("negative infinity", 0xff80_0000, 0xfff0_0000_0000_0000),
    ("a subnormal", 1, 1),
    ("a negative subnormal", 0x8000_0001, 0x8000_0000_0000_0001),
    ("negative zero", 0x8000_0000, 0x8000_0000_0000_0000),
];

/// What the settings' numbers are, in their order.
const SETTINGS: [&str; 11] = [
    "time", "time", "time", "time", "level", "time", "curve", "curve", "curve", "level", "level",
];

/// What the timing's numbers are.
const TIMING: [&str; 3] = ["rate", "tempo", "scale"];

/// What a number can be.
pub const FIELDS: [&str; 6] = ["time", "level", "curve", "rate", "tempo", "scale"];

/// The kind of a number by its sign, and whether its exponent is all ones, its
/// first digit one, and all digits zero.
fn kind(negative: bool, exponent: Exponent, quiet: bool, zero: bool) -> Option<&'static str> {
    let at = match (exponent, quiet, zero) {
        (Exponent::Ones, true, _) => 0,
        (Exponent::Ones, false, false) => 2,
        (Exponent::Ones, false, true) => 4,
        (Exponent::Zero, _, false) => 6,
        (Exponent::Zero, _, true) if negative => 7,
        _ => return None,
    };
    Some(KINDS[at + usize::from(negative)].0)
}

enum Exponent {
    Zero,
    Ones,
    Other,
}

fn kind_of_32(bits: u32) -> Option<&'static str> {
    let exponent = match bits >> 23 & 0xff {
        0 => Exponent::Zero,
        0xff => Exponent::Ones,
        _ => Exponent::Other,
    };
    let digits = bits & 0x7f_ffff;
    kind(bits >> 31 == 1, exponent, digits >> 22 == 1, digits == 0)
}

fn kind_of_64(bits: u64) -> Option<&'static str> {
    let exponent = match bits >> 52 & 0x7ff {
        0 => Exponent::Zero,
        0x7ff => Exponent::Ones,
        _ => Exponent::Other,
    };
    let digits = bits & ((1 << 52) - 1);
    kind(bits >> 63 == 1, exponent, digits >> 51 == 1, digits == 0)
}

/// The special numbers of a record's body: the kind of each, and what it is.
#[must_use]
pub fn specials(tag: u8, body: &[u8]) -> Vec<(&'static str, &'static str)> {
    let mut found = Vec::new();
    if let Some(at) = timing_at(tag) {
        for (number, field) in body[at..].chunks_exact(8).zip(TIMING) {
            let bits = number.iter().rev().fold(0, |n, b| n << 8 | u64::from(*b));
            found.extend(kind_of_64(bits).map(|kind| (kind, field)));
        }
    }
    if let Some(at) = settings_at(tag) {
        for (number, field) in body[at + 1..].chunks_exact(4).zip(SETTINGS) {
            let bits = number.iter().rev().fold(0, |n, b| n << 8 | u32::from(*b));
            found.extend(kind_of_32(bits).map(|kind| (kind, field)));
        }
    }
    found
}

/// `event` with one of its numbers, if it has any, of a special kind.
pub fn with_one(random: &mut Random, event: Event) -> Event {
    let mut record = event.record();
    let (_, narrow, wide) = random.choose(&KINDS);
    // Payloads of every length, but for infinities and zeros.
    let payload = random.u64_of_any_length();
    let (settings, timing) = (settings_at(event.tag()), timing_at(event.tag()));
    let at_timing = timing.filter(|_| settings.is_none() || random.coin());
    if let Some(at) = at_timing {
        let first = HEAD + at + 8 * random.below(3) as usize;
        let digits = if wide & 1 == 1 { payload >> 13 } else { 0 };
        record[first..first + 8].copy_from_slice(&(wide | digits).to_le_bytes());
    } else if let Some(at) = settings {
        let first = HEAD + at + 1 + 4 * random.below(11) as usize;
        let digits = if narrow & 1 == 1 { payload >> 42 } else { 0 };
        record[first..first + 4].copy_from_slice(&(narrow | digits as u32).to_le_bytes());
    }
    Event::read(event.tag(), &record[HEAD..]).unwrap_or(event)
}

#[cfg(test)]
mod tests {
    use super::*;
    use crate::rust::envelope::{EnvelopeParams, Timing};

    #[test]
    fn each_kind_is_told_apart() {
        for (name, narrow, wide) in KINDS {
            assert_eq!(kind_of_32(narrow), Some(name));
            assert_eq!(kind_of_64(wide), Some(name));
        }
        for number in [0.0_f32, 1.0, -1.0, f32::MAX, f32::MIN_POSITIVE] {
            assert_eq!(kind_of_32(number.to_bits()), None);
            assert_eq!(kind_of_64(f64::from(number).to_bits()), None);
        }
    }

    #[test]
    fn found_where_they_stand() {
        let settings = EnvelopeParams {
            release: f32::NEG_INFINITY,
            end: -0.0,
            ..EnvelopeParams::AMP
        };
        let timing = Timing::new(1000.0).with_tempo(f64::INFINITY);
        let record = Event::Open(1, timing, settings).record();
        let found = [
            ("infinity", "tempo"),
            ("negative infinity", "time"),
            ("negative zero", "level"),
        ];
        assert_eq!(specials(record[0], &record[HEAD..]), found);
    }
}
