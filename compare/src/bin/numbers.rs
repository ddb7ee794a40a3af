//! Compares the number helpers with the Rust, bits against bits: unit and
//! samples with the derived Rust's own, the conversions and choices with the
//! language's, the stand-ins with the same steps in Rust.

use std::process::ExitCode;

use compare::arguments::Arguments;
use compare::floats;
use compare::library::{self, Export};
use compare::program::{Compared, Program};
use compare::random::Random;
use compare::report::{Bits, Tally};
use compare::rust::envelope::{TimeUnit, Timing, unit_of};
use compare::stand_ins;
use compare::times::{self, Time};

const HELP: &str = "\
Compares the number helpers of the Rattle library with the Rust, bits against
bits, on edge cases and random inputs. Prints each difference, the cases of
each helper and their sum; the status is 1 on any difference.
  --seed N    what the random inputs follow from, decimal or 0x hexadecimal
  --cases N   random inputs of each kind, beside the fixed ones";

/// Where a helper's random inputs come from.
struct Source {
    random: Random,
    cases: u64,
}

type Comparison = fn(&mut Source, &mut Tally);

const COMPARISONS: [(&str, Comparison); 16] = [
    ("unit", unit),
    ("max", max),
    ("clamp", clamp),
    ("round_to_u64", round_to_u64),
    ("narrow", narrow),
    ("widen", widen),
    ("of_u64", of_u64),
    ("f32_to_bits", f32_to_bits),
    ("f32_from_bits", f32_from_bits),
    ("f64_to_bits", f64_to_bits),
    ("f64_from_bits", f64_from_bits),
    ("exp_m1", exp_m1),
    ("exp", exp),
    ("ln_1p", ln_1p),
    ("powi", powi),
    ("samples", samples),
];

/// The counts of each helper.
struct Helpers(Vec<Tally>);

impl Compared for Helpers {
    /// A helper without a case is told by its count.
    fn print(&self) -> bool {
        true
    }

    fn tallies(self) -> Vec<Tally> {
        self.0
    }
}

fn main() -> ExitCode {
    let program = Program {
        help: HELP,
        cases: 2_000_000,
        stored: None,
    };
    program.run(|arguments| Ok(compare(arguments)))
}

fn compare(Arguments { seed, cases }: Arguments) -> Helpers {
    // By the library's list, so that a helper nobody compares has no case.
    let tallies = library::NUMBERS.iter().map(|&Export { name, .. }| {
        let mut tally = Tally::new(name);
        if let Some((_, comparison)) = COMPARISONS.iter().find(|(of, _)| *of == name) {
            let random = Random::named(seed, name);
            comparison(&mut Source { random, cases }, &mut tally);
        }
        tally
    });
    Helpers(tallies.collect())
}

/// The edges of binary32, and even steps through all its bit patterns.
fn every_f32(source: &mut Source, mut check: impl FnMut(f32)) {
    floats::edges_f32().for_each(&mut check);
    // An odd step reaches every low digit.
    let step = ((1 << 32) / source.cases.max(1)) as u32 | 1;
    let mut bits = source.random.bits() as u32;
    for _ in 0..source.cases {
        check(f32::from_bits(bits));
        bits = bits.wrapping_add(step);
    }
}

/// The edges of binary64, random bit patterns, and random numbers of the
/// sizes that binary32 has.
fn every_f64(source: &mut Source, mut check: impl FnMut(f64)) {
    floats::edges_f64().for_each(&mut check);
    for _ in 0..source.cases.div_ceil(2) {
        check(source.random.f64_bits());
        check(source.random.scaled(-160, 130));
    }
}

fn unit(source: &mut Source, tally: &mut Tally) {
    every_f32(source, |x| {
        tally.check((x,), library::unit(x), unit_of(x));
    });
    for _ in 0..source.cases {
        let x = source.random.between(-0.5, 1.5) as f32;
        tally.check((x,), library::unit(x), unit_of(x));
    }
}

fn widen(source: &mut Source, tally: &mut Tally) {
    every_f32(source, |x| {
        tally.check((x,), library::widen(x), f64::from(x));
    });
}

/// Here the one pattern of a NaN is part of the answer.
fn f32_to_bits(source: &mut Source, tally: &mut Tally) {
    every_f32(source, |x| {
        tally.check((x,), library::f32_to_bits(x), x.compared() as u32);
    });
}

fn f32_from_bits(source: &mut Source, tally: &mut Tally) {
    every_f32(source, |x| {
        let bits = x.to_bits();
        tally.check((bits,), library::f32_from_bits(bits), x);
    });
}

/// Here too.
fn f64_to_bits(source: &mut Source, tally: &mut Tally) {
    every_f64(source, |x| {
        tally.check((x,), library::f64_to_bits(x), x.compared());
    });
}

fn f64_from_bits(source: &mut Source, tally: &mut Tally) {
    every_f64(source, |x| {
        let bits = x.to_bits();
        tally.check((bits,), library::f64_from_bits(bits), x);
    });
}

fn narrow(source: &mut Source, tally: &mut Tally) {
    let mut check = |x: f64| tally.check((x,), library::narrow(x), x as f32);
    every_f64(source, &mut check);
    for x in floats::edges_f32() {
        floats::around_narrowing_half(x)
            .into_iter()
            .for_each(&mut check);
    }
    for _ in 0..source.cases.div_ceil(10) {
        let x = source.random.f32_bits();
        floats::around_narrowing_half(x)
            .into_iter()
            .for_each(&mut check);
        // The same digits at the exponents of subnormals.
        let subnormal = f32::from_bits(x.to_bits() & 0x80ff_ffff);
        floats::around_narrowing_half(subnormal)
            .into_iter()
            .for_each(&mut check);
    }
}

fn round_to_u64(source: &mut Source, tally: &mut Tally) {
    let mut check = |x: f64| tally.check((x,), library::round_to_u64(x), x.round() as u64);
    every_f64(source, &mut check);
    // A count, the half above it, and what is around both: small counts, then
    // around every power of two, through 2^53, 2^63 and 2^64.
    let mut at = |count: f64| {
        for x in [count, count + 0.5] {
            floats::around(x).into_iter().for_each(&mut check);
            floats::around(-x).into_iter().for_each(&mut check);
        }
    };
    (0..10_000).for_each(|count| at(f64::from(count)));
    for power in 0..=66 {
        let count = f64::from_bits((1023 + power) << 52);
        for near in [count - 2.0, count - 1.0, count, count + 1.0, count + 2.0] {
            at(near);
        }
    }
    at(u64::MAX as f64);
    for _ in 0..source.cases.div_ceil(20) {
        at((source.random.bits() >> (12 + source.random.below(52))) as f64);
    }
}

fn of_u64(source: &mut Source, tally: &mut Tally) {
    let mut check = |n: u64| tally.check((n,), library::of_u64(n), n as f64);
    for power in 0..64 {
        for offset in 0..=4096 {
            check((1 << power) + offset);
            check((1_u64 << power).wrapping_sub(offset));
        }
    }
    (0..=4096).for_each(|offset| check(u64::MAX - offset));
    for _ in 0..source.cases.div_ceil(8) {
        check(source.random.bits());
        check(source.random.u64_of_any_length());
        // 54 to 64 bits long, where digits get lost.
        let long = (source.random.bits() | 1 << 63) >> source.random.below(11);
        floats::around_whole_half(long).for_each(&mut check);
    }
}

/// Rust leaves the sign open where both are zeros; ours is the first one's.
fn max_expected(x: f64, y: f64) -> f64 {
    if x == 0.0 && y == 0.0 { x } else { x.max(y) }
}

fn max(source: &mut Source, tally: &mut Tally) {
    let mut check = |x: f64, y: f64| {
        tally.check((x, y), library::max(x, y), max_expected(x, y));
        tally.check((y, x), library::max(y, x), max_expected(y, x));
    };
    let specials = floats::specials_f64();
    for &x in &specials {
        specials.iter().for_each(|&y| check(x, y));
    }
    for x in floats::edges_f64() {
        check(x, source.random.choose(&specials));
        check(x, x.next_up());
        check(x, -x);
    }
    for _ in 0..source.cases.div_ceil(4) {
        let (x, y) = (source.random.f64_bits(), source.random.f64_bits());
        check(x, y);
        check(x, f64::from_bits(x.to_bits() ^ 1));
    }
}

/// Rust's own where it answers; the same tests where it would panic.
fn clamp_expected(x: f64, min: f64, max: f64) -> f64 {
    if min <= max {
        x.clamp(min, max)
    } else if x < min {
        min
    } else if x > max {
        max
    } else {
        x
    }
}

fn clamp(source: &mut Source, tally: &mut Tally) {
    let mut check = |x: f64, min: f64, max: f64| {
        let ours = library::clamp(x, min, max);
        tally.check((x, min, max), ours, clamp_expected(x, min, max));
    };
    let specials = floats::specials_f64();
    for &x in &specials {
        for &min in &specials {
            specials.iter().for_each(|&max| check(x, min, max));
        }
    }
    for x in floats::edges_f64() {
        check(x, 0.1, 10.0);
        check(x, x, x.next_up());
        check(x, x.next_up(), source.random.choose(&specials));
    }
    for _ in 0..source.cases.div_ceil(3) {
        let random = &mut source.random;
        check(random.f64_bits(), random.f64_bits(), random.f64_bits());
        check(random.between(-0.5, 11.0), 0.1, 10.0);
        check(random.between(-0.5, 1.5), 0.0, 1.0);
    }
}

/// The sizes that bends have, beyond them, and everything else.
fn exponents(source: &mut Source, mut check: impl FnMut(f64)) {
    every_f64(source, &mut check);
    for _ in 0..source.cases.div_ceil(3) {
        check(source.random.between(-12.0, 12.0));
        check(source.random.between(-800.0, 800.0));
        check(source.random.scaled(-60, 4));
    }
}

fn exp_m1(source: &mut Source, tally: &mut Tally) {
    exponents(source, |z| {
        tally.check((z,), library::exp_m1(z), stand_ins::exp_m1(z));
    });
}

fn exp(source: &mut Source, tally: &mut Tally) {
    exponents(source, |z| {
        tally.check((z,), library::exp(z), stand_ins::exp(z));
    });
}

fn ln_1p(source: &mut Source, tally: &mut Tally) {
    let mut check = |a: f64| tally.check((a,), library::ln_1p(a), stand_ins::ln_1p(a));
    every_f64(source, &mut check);
    // Where 1 + a reaches a power of two, or the 1.5 at which it is halved.
    for power in 0..=1023 {
        let power = f64::from_bits((1023 + power) << 52);
        for w in [power, power * 1.5, power.recip(), power.recip() * 1.5] {
            floats::around(w - 1.0).into_iter().for_each(&mut check);
        }
    }
    for _ in 0..source.cases.div_ceil(5) {
        let random = &mut source.random;
        check(random.between(-1.0, 1.0));
        check(random.between(-1.0, 1e6));
        check(random.scaled(-70, 0));
        check(random.scaled(-60, -1).abs() - 1.0);
        // Subnormals of both signs.
        check(f64::from_bits(random.bits() & !(0x7ff << 52)));
    }
}

/// The ratio of a curve of bend `k` over `n` samples, as a segment holds it.
fn ratio(k: f64, n: f64) -> f64 {
    f64::from(stand_ins::exp(-k / n) as f32)
}

fn powi(source: &mut Source, tally: &mut Tally) {
    let mut check = |r: f64, len: u32| {
        tally.check((r, len), library::powi(r, len), stand_ins::powi(r, len));
    };
    // Every length that a segment has, with ratios of curves of such lengths.
    for len in 0..=16384 {
        let n = f64::from(len.max(1));
        for k in [-12.0, -3.984, 3.984, 12.0] {
            check(ratio(k, n), len);
            check(ratio(k, 16384.0), len);
        }
        check(source.random.f64_bits(), len);
    }
    for r in floats::specials_f64() {
        for power in 0..32 {
            let len = 1_u32 << power;
            for near in [len - 1, len, len + 1, !len] {
                check(r, near);
            }
        }
    }
    floats::edges_f64().for_each(|r| check(r, source.random.below(20_000) as u32));
    for _ in 0..source.cases.div_ceil(3) {
        let random = &mut source.random;
        let len = random.bits() as u32;
        check(random.f64_bits(), len);
        check(1.0 + random.scaled(-50, -20), len);
        check(
            ratio(random.between(-12.0, 12.0), random.between(1.0, 1e5)),
            len >> 18,
        );
    }
}

fn samples(source: &mut Source, tally: &mut Tally) {
    let mut check = |time: Time| {
        let (beats, value) = (time.unit == TimeUnit::Tempo, time.value);
        let Timing {
            sample_rate,
            tempo,
            scale,
        } = time.timing;
        tally.check(
            (beats, value, sample_rate, tempo, scale),
            library::samples(beats, value, sample_rate, tempo, scale),
            time.timing.samples(value, time.unit),
        );
    };
    times::listed().for_each(&mut check);
    for _ in 0..source.cases.div_ceil(2) {
        check(Time::random(&mut source.random));
        check(Time::half(&mut source.random));
    }
}
