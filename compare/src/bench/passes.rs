//! Passes over a bank on three sides, and the rows of what they take: over C,
//! over the crate of hosts/rust, and of the Rust's own.
//!
//! The loops over the voices are in C for C, and in Rust for the others. A bank
//! is opened, and has its notes, outside the time that is measured, where it is
//! not that which is measured.

use std::hint::black_box;
use std::time::Instant;

use compare::live::functions::LiveBank;
use compare::measured::Measured;
use compare::measured::asked::{Chord, Kind, Opening, Query, Sound};
use compare::rust::envelope;

use crate::medians;

/// Nanoseconds over C, over the crate and of the Rust's own.
pub type Three = [f64; 3];

/// How often a call is made on one voice, on all, and a reading.
const ON_ONE: u32 = 1 << 12;
const ON_ALL: u32 = 1 << 8;
const READ: u32 = 1 << 14;

/// The levels of a row of blocks, and the most blocks.
const LEVELS: usize = 1 << 21;
const BLOCKS: usize = 1 << 14;

/// A bent decay that outlasts every measurement.
pub const BENT: Sound = Sound {
    sample_rate: 48_000.0,
    attack: 0.0,
    decay: 600_000.0,
    sustain: 0.25,
};

/// A straight attack that does.
pub const STRAIGHT: Sound = Sound {
    attack: 600_000.0,
    ..BENT
};

/// What is measured.
#[derive(Clone, Copy, Debug)]
pub enum Call {
    Open,
    Of(Kind),
    Chord(Chord),
    Read(Query),
    /// A block of so many frames.
    Block(usize),
    /// All of a take: the opening, its notes, and a block of so many frames.
    Take(usize),
}

impl Call {
    /// How often it is made in a pass.
    pub fn times(self, voices: usize) -> u32 {
        match self {
            Self::Open => ON_ALL,
            Self::Of(kind) if kind.is_for_all() => ON_ALL,
            Self::Of(_) => ON_ONE,
            Self::Chord(chord) => ON_ONE / chord.voices as u32,
            Self::Read(_) => READ,
            Self::Block(frames) => {
                (LEVELS / (frames * LiveBank::levels(voices))).min(BLOCKS) as u32
            }
            Self::Take(_) => 1,
        }
    }

    /// The frames of its output, or of what is drawn after it.
    fn frames(self) -> usize {
        match self {
            Self::Block(frames) | Self::Take(frames) => frames,
            _ => 1,
        }
    }
}

/// A bank of so many voices, a note on each.
pub fn sounding(sound: Sound, voices: usize) -> Opening {
    Opening {
        sound,
        voices,
        notes: voices as u32,
    }
}

/// The median nanoseconds of one call beside the Rust's own bank.
pub fn timed(opening: Opening, call: Call) -> Three {
    timed_beside::<envelope::EnvelopeBank>(opening, call)
}

/// The median nanoseconds of one call, on all three sides in turns and with one
/// output. They have to answer the same.
pub fn timed_beside<R: Measured>(opening: Opening, call: Call) -> Three {
    let mut out = vec![0.0; call.frames() * LiveBank::levels(opening.voices)];
    let rust = answer::<R>(opening, call, &mut out);
    let c = answer::<LiveBank>(opening, call, &mut out);
    assert_eq!(c, rust, "{call:?} over C");
    let through_crate = answer::<worfelli::EnvelopeBank>(opening, call, &mut out);
    assert_eq!(through_crate, rust, "{call:?} over the crate");
    medians(|| {
        [
            once::<LiveBank>(opening, call, &mut out).0,
            once::<worfelli::EnvelopeBank>(opening, call, &mut out).0,
            once::<R>(opening, call, &mut out).0,
        ]
    })
    .map(|nanoseconds| nanoseconds / f64::from(call.times(opening.voices)))
}

/// What a pass comes to: the voices' levels in the output, and the sum of what
/// was read.
fn answer<M: Measured>(opening: Opening, call: Call, out: &mut [f32]) -> Vec<u64> {
    out.fill(2.0);
    let (_, sum) = once::<M>(opening, call, out);
    let frames = out.chunks_exact(M::levels(opening.voices));
    let levels = frames.take(call.frames());
    let levels = levels.flat_map(|frame| frame.iter().take(opening.voices));
    let bits = levels.map(|level| level.to_bits().into());
    bits.chain([sum]).collect()
}

/// One pass, on a bank of its own, and into the first frames of `out`: its
/// nanoseconds, and the sum of what was read. A call that draws nothing is
/// followed by a frame, outside the time.
fn once<M: Measured>(opening: Opening, call: Call, out: &mut [f32]) -> (f64, u64) {
    let (opening, times) = (black_box(opening), call.times(opening.voices));
    let out = black_box(&mut out[..call.frames() * M::levels(opening.voices)]);
    let (mut sum, mut fresh) = (0, None);
    let mut measured = M::triggered(opening);
    let start = Instant::now();
    match black_box(call) {
        Call::Open => measured.opens(opening, times),
        Call::Of(kind) => measured.calls(opening.sound, kind, times),
        Call::Chord(chord) => measured.chords(opening.sound, chord, times),
        Call::Read(query) => sum = measured.readings(query, times),
        Call::Block(_) => measured.blocks(out, times),
        Call::Take(_) => fresh.insert(M::triggered(opening)).blocks(out, times),
    }
    let nanoseconds = start.elapsed().as_nanos() as f64;
    if !matches!(call, Call::Block(_) | Call::Take(_)) {
        measured.blocks(out, 1);
    }
    black_box(out);
    (nanoseconds, black_box(sum))
}

/// Prints the head of a table whose rows begin with what they are about, and
/// end with `more`.
pub fn head(about: &str, unit: &str, more: &str) {
    let times = ["C", "Crate", "Rust"].map(|side| format!("{side}, {unit}"));
    let times = times.join(" | ");
    println!("\n| {about} | {times} | C / Rust | Crate / Rust |{more}");
}

/// Prints a row.
pub fn row(about: &str, times: Three, digits: usize) {
    println!("| {about} | {} |", figures(times, digits));
}

/// The figures of a row.
pub fn figures([c, through_crate, rust]: Three, digits: usize) -> String {
    format!(
        "{c:.digits$} | {through_crate:.digits$} | {rust:.digits$} | {:.2} | {:.2}",
        c / rust,
        through_crate / rust
    )
}
