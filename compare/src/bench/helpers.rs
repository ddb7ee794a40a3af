//! The number helpers beside their Rust counterparts.
//!
//! Inputs and results go through `black_box`, so that no call is computed
//! ahead, shared or dropped. Ours is necessarily a call into another library,
//! so each Rust counterpart is a function that is never inlined; otherwise
//! the table would measure the cost of a call and not that of the helper.
//!
//! Each helper is measured twice: with calls that the processor may overlap,
//! and with each call ended before the next begins, as planning meets them.

use std::arch::x86_64::_mm_lfence;
use std::hint::black_box;

use compare::library;
use compare::program::SEED;
use compare::random::Random;
use compare::stand_ins;

use crate::in_turns;

const INPUTS: usize = 4096;

/// The Rust's counterparts, each a call.
mod counterpart {
    use compare::rust::envelope::{TimeUnit, Timing, unit_of};
    use compare::stand_ins;

    macro_rules! calls {
        ($($name:ident($($arg:ident: $type:ty),*) -> $result:ty = $body:expr;)*) => {
            $(#[inline(never)] pub fn $name($($arg: $type),*) -> $result { $body })*
        };
    }

    calls! {
        unit(value: f32) -> f32 = unit_of(value);
        max(x: f64, y: f64) -> f64 = x.max(y);
        clamp(x: f64, low: f64, high: f64) -> f64 = x.clamp(low, high);
        round_to_u64(x: f64) -> u64 = x.round() as u64;
        narrow(x: f64) -> f32 = x as f32;
        widen(x: f32) -> f64 = f64::from(x);
        of_u64(n: u64) -> f64 = n as f64;
        f32_to_bits(x: f32) -> u32 = x.to_bits();
        f32_from_bits(bits: u32) -> f32 = f32::from_bits(bits);
        f64_to_bits(x: f64) -> u64 = x.to_bits();
        f64_from_bits(bits: u64) -> f64 = f64::from_bits(bits);
        exp_m1(z: f64) -> f64 = stand_ins::exp_m1(z);
        exp(z: f64) -> f64 = stand_ins::exp(z);
        ln_1p(a: f64) -> f64 = stand_ins::ln_1p(a);
        powi(r: f64, len: u32) -> f64 = stand_ins::powi(r, len);
        samples(beats: bool, value: f32, sample_rate: f64, tempo: f64, scale: f64) -> u64 = {
            let unit = if beats { TimeUnit::Tempo } else { TimeUnit::Milliseconds };
            Timing { sample_rate, tempo, scale }.samples(value, unit)
        };
    }
}

/// Measures one helper on inputs that hold its arguments, and prints its row.
macro_rules! row {
    ($name:ident($arg:ident), $about:literal, $inputs:expr) => {
        row!(@ $name, $about, $inputs, $arg, ($arg))
    };
    ($name:ident($($arg:ident),*), $about:literal, $inputs:expr) => {
        row!(@ $name, $about, $inputs, ($($arg),*), ($($arg),*))
    };
    (@ $name:ident, $about:literal, $inputs:expr, $input:pat, $arguments:tt) => {{
        let medians = measure($inputs, |$input| library::$name $arguments, |$input| {
            counterpart::$name $arguments
        });
        print_row(stringify!($name), $about, medians);
    }};
}

/// Prints the table.
pub fn print() {
    println!(
        "\n| Helper | Inputs | Overlapped: ours, ns | Rust, ns | Ratio | Apart: ours, ns | Rust, ns | Ratio |"
    );
    println!("|---|---|---:|---:|---:|---:|---:|---:|");
    let mut random = Random::new(SEED);
    choices(&mut random);
    conversions(&mut random);
    steps(&mut random);
}

/// Typical inputs, each as `one` draws it.
fn draw<I>(random: &mut Random, one: impl Fn(&mut Random) -> I) -> Vec<I> {
    (0..INPUTS).map(|_| one(random)).collect()
}

fn choices(random: &mut Random) {
    let controls = draw(random, |r| r.between(-0.1, 1.1) as f32);
    row!(unit(value), "controls, -0.1 to 1.1", &controls);
    let tempos = draw(random, |r| (r.between(-1.0, 300.0), 1.0));
    row!(max(x, y), "tempos, and 1", &tempos);
    let scales = draw(random, |r| (r.between(0.0, 11.0), 0.1, 10.0));
    row!(clamp(x, low, high), "scales, to 0.1..10", &scales);
    let settings = draw(random, |r| {
        let value = r.between(0.0, 5000.0) as f32;
        (r.coin(), value, 48_000.0, 120.0, r.between(0.1, 10.0))
    });
    row!(
        samples(beats, value, sample_rate, tempo, scale),
        "both units, 48 kHz",
        &settings
    );
}

fn conversions(random: &mut Random) {
    let counts = draw(random, |r| r.between(0.0, 1e6));
    row!(round_to_u64(x), "counts to a million", &counts);
    let wholes = draw(random, |r| r.below(1_000_000));
    row!(of_u64(n), "counts to a million", &wholes);
    let levels = draw(random, |r| r.between(0.0, 1.0));
    row!(narrow(x), "levels, 0 to 1", &levels);
    row!(f64_to_bits(x), "levels, 0 to 1", &levels);
    let bits: Vec<u64> = levels.iter().map(|x| x.to_bits()).collect();
    row!(f64_from_bits(bits), "levels, 0 to 1", &bits);
    let levels: Vec<f32> = levels.iter().map(|&x| x as f32).collect();
    row!(widen(x), "levels, 0 to 1", &levels);
    row!(f32_to_bits(x), "levels, 0 to 1", &levels);
    let bits: Vec<u32> = levels.iter().map(|x| x.to_bits()).collect();
    row!(f32_from_bits(bits), "levels, 0 to 1", &bits);
}

fn steps(random: &mut Random) {
    let bends = draw(random, |r| r.between(-12.0, 12.0));
    row!(exp_m1(z), "bends, -12 to 12", &bends);
    row!(exp(z), "bends, -12 to 12", &bends);
    let moved = draw(random, |r| r.between(-1.0, 10.0));
    row!(ln_1p(a), "-1 to 10", &moved);
    let ratios = draw(random, |r| {
        let bend_per_sample = r.between(-12.0, 12.0) / 48_000.0;
        (f64::from(stand_ins::exp(bend_per_sample) as f32), 16_384)
    });
    row!(powi(r, len), "ratios near 1, length 16384", &ratios);
}

/// Whether calls may overlap, or each ends before the next begins.
#[derive(Clone, Copy)]
enum Pace {
    Overlapped,
    Apart,
}

/// The median nanoseconds per call of both sides on `inputs` at both paces.
fn measure<I: Copy, O>(
    inputs: &[I],
    ours: impl Fn(I) -> O,
    rust: impl Fn(I) -> O,
) -> [[f64; 2]; 2] {
    [Pace::Overlapped, Pace::Apart].map(|pace| {
        in_turns(|| all(inputs, pace, &ours), || all(inputs, pace, &rust))
            .map(|nanoseconds| nanoseconds / inputs.len() as f64)
    })
}

/// Calls on all `inputs`, once.
fn all<I: Copy, O>(inputs: &[I], pace: Pace, call: impl Fn(I) -> O) {
    match pace {
        Pace::Overlapped => {
            for &input in inputs {
                black_box(call(black_box(input)));
            }
        }
        Pace::Apart => {
            for &input in inputs {
                black_box(call(black_box(input)));
                // SAFETY: every x86-64 processor has it, and it only waits.
                unsafe { _mm_lfence() };
            }
        }
    }
}

fn print_row(name: &str, about: &str, medians: [[f64; 2]; 2]) {
    let figures = medians.map(|[ours, rust]| {
        let ratio = ours / rust;
        format!("{ours:.2} | {rust:.2} | {ratio:.2}")
    });
    println!("| `{name}` | {about} | {} |", figures.join(" | "));
}
