//! Notes of the single envelope beside those of the Rust's.

use std::hint::black_box;

use compare::library;
use compare::rust::envelope::{Envelope, EnvelopeParams, Timing, Trigger};

use crate::in_turns;

/// A note's numbers: sample rate, attack, decay, sustain.
type Note = (f64, f32, f32, f32);

/// The frames of a pass, which is one note or more.
const FRAMES: usize = 1 << 16;

/// A new note with a bent decay of 5 s at 48 kHz: planned, and drawn in one
/// block. Short blocks are mostly planning, long ones mostly drawing.
pub fn print() {
    const NOTE: Note = (48_000.0, 0.0, 5000.0, 0.25);
    println!("\n| Frames of a note | Ours, ns a frame | Rust, ns a frame | Ratio |");
    println!("|---:|---:|---:|---:|");
    for frames in [1, 16, 64, 256, 1024, 16_384, 65_536] {
        let (mut out, mut expected) = (vec![0.0; frames], vec![0.0; frames]);
        our_note(NOTE, &mut out);
        rust_note(NOTE, &mut expected);
        assert_eq!(out, expected, "the levels of a note of {frames} frames");
        let [ours, rust] = in_turns(
            || played(&mut out, our_note, NOTE),
            || played(&mut expected, rust_note, NOTE),
        )
        .map(|nanoseconds| nanoseconds / FRAMES as f64);
        println!("| {frames} | {ours:.2} | {rust:.2} | {:.2} |", ours / rust);
    }
}

fn our_note((rate, attack, decay, sustain): Note, out: &mut [f32]) {
    library::note(rate, attack, decay, sustain, out);
}

#[inline(never)]
fn rust_note((rate, attack, decay, sustain): Note, out: &mut [f32]) {
    let settings = EnvelopeParams {
        attack,
        decay,
        sustain,
        ..EnvelopeParams::AMP
    };
    let mut envelope = Envelope::new(settings, Timing::new(rate));
    envelope.trigger(Trigger::New);
    envelope.process(out);
}

/// A note, played until so many frames have been drawn.
fn played(out: &mut [f32], note: fn(Note, &mut [f32]), numbers: Note) {
    for _ in 0..FRAMES / out.len() {
        note(black_box(numbers), out);
        black_box(&mut *out);
    }
}
