//! Random settings and timings for lists of calls: mostly such that stages
//! take a few samples and end within the list, and some of everything else.

use crate::random::Random;
use crate::reference::LIMIT;
use crate::rust::envelope::{EnvelopeParams, StealRestart, TimeUnit, Timing};
use crate::times;

/// What a list is made of.
#[derive(Clone, Copy, Debug, PartialEq, Eq)]
pub enum Style {
    /// Stages of a few samples.
    Short,
    /// Stages around whole segments.
    Segments,
    /// Stages of several hundred thousand samples.
    Long,
    /// Short, with levels of a few times the least number, where a level's
    /// rounding is as large as the level.
    Tiny,
    /// Any numbers.
    Odd,
}

/// The fewest and most samples of a long stage.
const LONG: (u64, u64) = (100_000, 450_000);

/// Counts at which a stage gets another segment, and beside them.
const SEGMENTS: [f32; 8] = [
    16_383.0, 16_384.0, 16_385.0, 16_386.0, 32_767.0, 32_768.0, 32_769.0, 49_153.0,
];

/// Levels and curves at which something changes.
#[rustfmt::skip]
const CONTROLS: [f32; 18] = [
    0.0, -0.0, 1.0, 0.5, 0.25, 0.999_999_94, 1.000_000_1, -1.0, 2.0, f32::MIN_POSITIVE,
    f32::from_bits(1), f32::from_bits(3), f32::from_bits(0x8000_0001), f32::INFINITY,
    f32::NEG_INFINITY, f32::MAX, f32::NAN, f32::from_bits(0xff80_0001),
];

/// Rates of 1000 and near it, at which a time in milliseconds is about its
/// count of samples.
#[rustfmt::skip]
const RATES: [f64; 10] = [
    1000.0, 1000.0, 1000.0, 2000.0, 500.0, 1500.0, 999.5, 1001.0, 333.333_333, 100.0,
];

const TEMPOS: [f64; 6] = [60.0, 120.0, 90.5, 240.0, 1.0, 0.5];

const SCALES: [f64; 9] = [1.0, 1.0, 1.0, 0.5, 2.0, 1.5, 0.1, 10.0, 0.3];

/// All settings anew.
pub fn settings(random: &mut Random, style: Style) -> EnvelopeParams {
    let mut settings = EnvelopeParams::AMP;
    for number in 0..14 {
        change(random, style, &mut settings, number);
    }
    settings
}

/// The setting with `number`, from 0 to 13, anew.
pub fn change(random: &mut Random, style: Style, p: &mut EnvelopeParams, number: u64) {
    match number {
        0 => p.delay = time(random, style, p.unit),
        1 => p.attack = time(random, style, p.unit),
        2 => p.hold = time(random, style, p.unit),
        3 => p.decay = time(random, style, p.unit),
        4 => p.release = time(random, style, p.unit),
        5 => p.sustain = level(random, style),
        6 => p.start = level(random, style),
        7 => p.end = level(random, style),
        8 => p.attack_curve = curve(random, style),
        9 => p.decay_curve = curve(random, style),
        10 => p.release_curve = curve(random, style),
        11 => p.legato_inverted = random.coin(),
        12 => {
            p.steal_restart = if random.coin() {
                StealRestart::StartLevel
            } else {
                StealRestart::CurrentLevel
            };
        }
        _ => {
            p.unit = match random.below(6) {
                0 => TimeUnit::Tempo,
                _ => TimeUnit::Milliseconds,
            };
        }
    }
}

/// A time. At rate 1000, tempo 60 and scale 1 the counts below come out as
/// they are, in both units.
fn time(random: &mut Random, style: Style, unit: TimeUnit) -> f32 {
    let count = match style {
        Style::Odd if random.below(5) == 0 => return odd_time(random),
        Style::Segments if random.below(4) == 0 => random.choose(&SEGMENTS),
        Style::Long if random.below(4) == 0 => (LONG.0 + random.below(LONG.1 - LONG.0)) as f32,
        _ => few(random),
    };
    match unit {
        TimeUnit::Milliseconds => count,
        TimeUnit::Tempo => count / 1000.0,
    }
}

/// No, one or a few samples, whole or not.
fn few(random: &mut Random) -> f32 {
    match random.below(20) {
        0..8 => 0.0,
        8..16 => (1 + random.below(5)) as f32,
        16 | 17 => (6 + random.below(40)) as f32,
        18 => random.below(12) as f32 / 2.0,
        _ => random.between(-1.0, 9.0) as f32,
    }
}

/// A time that is not usual, now and then over the limit.
fn odd_time(random: &mut Random) -> f32 {
    match random.below(8) {
        0 => random.choose(&[LIMIT, LIMIT.next_down(), LIMIT, LIMIT.next_up()]),
        1 => random.f32_bits(),
        2 => random.choose(&CONTROLS),
        3 => subnormal(random),
        4 => random.scaled(-20, 19) as f32,
        _ => times::value(random),
    }
}

/// A time over the limit.
pub fn time_over(random: &mut Random) -> f32 {
    match random.below(4) {
        0 => f32::INFINITY,
        1 => random.scaled(20, 126).abs().max(f64::from(LIMIT.next_up())) as f32,
        _ => LIMIT.next_up(),
    }
}

/// A sample rate over the limit.
pub fn rate_over(random: &mut Random) -> f64 {
    let least = f64::from(LIMIT).next_up();
    match random.below(4) {
        0 => f64::INFINITY,
        1 => random.scaled(20, 1022).abs().max(least),
        _ => least,
    }
}

fn subnormal(random: &mut Random) -> f32 {
    let bits = random.u64_of_any_length() as u32;
    f32::from_bits(bits & 0x807f_ffff)
}

fn level(random: &mut Random, style: Style) -> f32 {
    if style == Style::Tiny {
        return f32::from_bits(random.below(12) as u32);
    }
    match random.below(if style == Style::Odd { 12 } else { 40 }) {
        0 => random.f32_bits(),
        1 => random.choose(&CONTROLS),
        2 => subnormal(random),
        3 => random.scaled(-40, 0) as f32,
        4 => random.between(-0.5, 1.5) as f32,
        5..8 => random.below(9) as f32 / 8.0,
        _ => random.between(0.0, 1.0) as f32,
    }
}

fn curve(random: &mut Random, style: Style) -> f32 {
    if style == Style::Tiny && random.coin() {
        return 0.5;
    }
    match random.below(if style == Style::Odd { 12 } else { 24 }) {
        0 => random.f32_bits(),
        1 => random.choose(&CONTROLS),
        // Bends around the one below which a segment is straight.
        2 | 3 => (0.5 + random.scaled(-24, -4)) as f32,
        4 | 5 => 0.5,
        6 => random.choose(&[0.0, 1.0]),
        _ => random.between(0.0, 1.0) as f32,
    }
}

/// A timing whose rate is within the limit, but for odd ones.
pub fn timing(random: &mut Random, style: Style) -> Timing {
    if style == Style::Odd && random.below(3) == 0 {
        return odd_timing(random);
    }
    match random.below(4) {
        0 => Timing {
            sample_rate: random.choose(&RATES),
            tempo: random.choose(&TEMPOS),
            scale: random.choose(&SCALES),
        },
        1 => Timing::new(random.choose(&RATES)).with_tempo(60.0),
        _ => Timing::new(1000.0).with_tempo(60.0),
    }
}

fn odd_timing(random: &mut Random) -> Timing {
    let mut timing = times::timing(random);
    if random.below(4) == 0 {
        let limit = f64::from(LIMIT);
        timing.sample_rate =
            random.choose(&[limit, limit.next_down(), limit.next_up(), 1.0, f64::NAN]);
    }
    timing
}
