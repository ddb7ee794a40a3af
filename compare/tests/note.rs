//! A note of the library is the Rust's, level by level, in blocks of any
//! length, and is refused by its number.

use compare::library;
use compare::reference::{LIMIT, RATE, TIME, refused};
use compare::rust::envelope::{Envelope, EnvelopeParams, Timing, Trigger};

/// The bits of the first `frames` levels of a new note.
fn played(mut envelope: Envelope, frames: usize) -> Vec<u32> {
    let mut levels = vec![f32::NAN; frames];
    envelope.trigger(Trigger::New);
    envelope.process(&mut levels);
    levels.into_iter().map(f32::to_bits).collect()
}

/// The refusal, and the bits of what the library writes.
fn note(rate: f64, attack: f32, frames: usize) -> (u32, Vec<u32>) {
    let mut levels = vec![f32::NAN; frames];
    let refusal = library::note(rate, attack, 5000.0, 0.25, &mut levels);
    (refusal, levels.into_iter().map(f32::to_bits).collect())
}

#[test]
fn accepted() {
    let settings = EnvelopeParams {
        attack: 100.0,
        decay: 5000.0,
        sustain: 0.25,
        ..EnvelopeParams::AMP
    };
    for frames in [0, 1, 2, 4800, 16_384, 16_385, 65_536, 300_000] {
        let rust = played(Envelope::new(settings, Timing::new(48_000.0)), frames);
        assert_eq!(note(48_000.0, 100.0, frames), (0, rust), "{frames} frames");
    }
}

#[test]
fn refused_by_number() {
    let beside = played(refused(), 3);
    let fast = f64::from(LIMIT).next_up();
    let long = LIMIT.next_up();
    assert_eq!(note(fast, long, 3), (RATE, beside.clone()));
    assert_eq!(note(48_000.0, long, 3), (TIME, beside));
}
