//! How a take's cost grows: with the levels of its block, and with the voices.

use compare::measured::Measured;
use compare::measured::asked::VOICES;
use compare::rust::envelope::EnvelopeBank;

use crate::passes::{BENT, Call, head, row, sounding, timed};

/// Prints both tables.
pub fn print() {
    levels();
    voices();
}

/// Takes of one block, opening and notes and all.
fn levels() {
    head(
        "Levels of a take of 64 voices, from its opening on",
        "us",
        "",
    );
    println!("|---:|---:|---:|---:|---:|---:|");
    for power in 10..=20 {
        let levels: usize = 1 << power;
        let frames = levels / EnvelopeBank::levels(VOICES);
        let times = timed(sounding(BENT, VOICES), Call::Take(frames));
        row(&levels.to_string(), times.map(|take| take / 1e3), 1);
    }
}

/// Blocks of 256 frames.
fn voices() {
    const FRAMES: usize = 256;
    head("Voices", "ns a frame", "");
    println!("|---:|---:|---:|---:|---:|---:|");
    for voices in [1, 16, 17, 32, 48, VOICES] {
        let times = timed(sounding(BENT, voices), Call::Block(FRAMES));
        let each = times.map(|block| block / FRAMES as f64);
        row(&voices.to_string(), each, 2);
    }
}
