//! Times, and the timing that they are measured by: listed ones, at which
//! something changes, and random ones.

use crate::random::Random;
use crate::rust::envelope::{TimeUnit, Timing};

const UNITS: [TimeUnit; 2] = [TimeUnit::Milliseconds, TimeUnit::Tempo];

#[rustfmt::skip]
const VALUES: [f32; 14] = [
    0.0, -0.0, 0.5, 1.0, 15.0, 500.0, -1.0, 1_048_576.0, f32::MIN_POSITIVE, f32::MAX,
    f32::INFINITY, f32::NEG_INFINITY, f32::NAN, f32::from_bits(0xff80_0001),
];

#[rustfmt::skip]
const RATES: [f64; 11] = [
    0.0, -0.0, 1.0, 1000.0, 44_100.0, 48_000.0, 1_048_576.0, -48_000.0, 1e300,
    f64::INFINITY, f64::NAN,
];

#[rustfmt::skip]
const TEMPOS: [f64; 10] = [
    120.0, 60.0, 1.0, 0.9999999999999999, 0.5, 0.0, -3.0, 1e300, f64::INFINITY, f64::NAN,
];

#[rustfmt::skip]
const SCALES: [f64; 11] = [
    1.0, 0.1, 0.09999999999999999, 10.0, 10.000000000000002, 0.0, -1.0, 20.0,
    f64::INFINITY, f64::NEG_INFINITY, f64::NAN,
];

/// A time and what it is measured by.
#[derive(Clone, Copy, Debug)]
pub struct Time {
    pub value: f32,
    pub unit: TimeUnit,
    pub timing: Timing,
}

impl Time {
    /// Any time by any timing.
    pub fn random(random: &mut Random) -> Self {
        Self {
            value: value(random),
            unit: random.choose(&UNITS),
            timing: timing(random),
        }
    }

    /// A time of some whole number of samples and exactly a half: an odd
    /// number of half units at an odd rate.
    pub fn half(random: &mut Random) -> Self {
        let unit = random.choose(&UNITS);
        let odd = (2 * random.below(10_000) + 1) as f32;
        let rate = (2 * random.below(50_000) + 1) as f64;
        Self {
            value: match unit {
                TimeUnit::Milliseconds => odd * 500.0,
                TimeUnit::Tempo => odd / 2.0,
            },
            unit,
            timing: Timing::new(rate).with_tempo(60.0),
        }
    }
}

/// A time's number: usual ones, whole and half ones, listed ones and any bit
/// pattern.
pub fn value(random: &mut Random) -> f32 {
    match random.below(6) {
        0 => random.f32_bits(),
        1 => random.choose(&VALUES),
        2 => random.below(20_000) as f32 / 2.0,
        3 => random.between(-10.0, 1_048_576.0) as f32,
        _ => random.between(0.0, 5000.0) as f32,
    }
}

/// A timing, each number chosen apart from the others.
pub fn timing(random: &mut Random) -> Timing {
    Timing {
        sample_rate: usual_or_not(random, &RATES, 1.0, 1_048_576.0),
        tempo: usual_or_not(random, &TEMPOS, 0.0, 300.0),
        scale: usual_or_not(random, &SCALES, 0.05, 11.0),
    }
}

/// A number between the bounds, one of the listed, or any bit pattern.
fn usual_or_not(random: &mut Random, listed: &[f64], low: f64, high: f64) -> f64 {
    match random.below(8) {
        0 => random.f64_bits(),
        1 | 2 => random.choose(listed),
        _ => random.between(low, high),
    }
}

/// Every combination of the listed numbers.
pub fn listed() -> impl Iterator<Item = Time> {
    listed_timings().flat_map(|timing| {
        VALUES.into_iter().flat_map(move |value| {
            UNITS.map(|unit| Time {
                value,
                unit,
                timing,
            })
        })
    })
}

fn listed_timings() -> impl Iterator<Item = Timing> {
    RATES.into_iter().flat_map(|sample_rate| {
        TEMPOS.into_iter().flat_map(move |tempo| {
            SCALES.map(|scale| Timing {
                sample_rate,
                tempo,
                scale,
            })
        })
    })
}
