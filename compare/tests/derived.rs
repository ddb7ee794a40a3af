//! The derived Rust plays document 01's sample list, alone and in a bank.

use compare::rust::envelope::{
    Envelope, EnvelopeBank, EnvelopeParams, StealRestart, TimeUnit, Timing, Trigger,
};
use compare::simd::Level;

const LEVELS: [u32; 10] = [
    0,
    0,
    0,
    0x3e80_0000,
    0x3f00_0000,
    0x3f40_0000,
    0x3f80_0000,
    0x3f80_0000,
    0x3f40_0000,
    0x3f00_0000,
];

const PARAMS: EnvelopeParams = EnvelopeParams {
    unit: TimeUnit::Milliseconds,
    delay: 2.0,
    attack: 4.0,
    hold: 1.0,
    decay: 2.0,
    sustain: 0.5,
    release: 2.0,
    attack_curve: 0.5,
    decay_curve: 0.5,
    release_curve: 0.5,
    start: 0.0,
    end: 0.0,
    legato_inverted: false,
    steal_restart: StealRestart::CurrentLevel,
};

#[test]
fn envelope() {
    let mut envelope = Envelope::new(PARAMS, Timing::new(1000.0));
    envelope.trigger(Trigger::New);
    let mut out = [f32::NAN; 10];
    envelope.process(&mut out);
    assert_eq!(out.map(f32::to_bits), LEVELS);
}

#[test]
fn bank() {
    let mut bank = EnvelopeBank::new(17, PARAMS, Timing::new(1000.0));
    bank.trigger(16, Trigger::New);
    assert_eq!(bank.stride(), 32);
    let mut out = [f32::NAN; 320];
    assert!(bank.process_at(Level::Portable, &mut out));
    for (row, level) in out.chunks_exact(32).zip(LEVELS) {
        for (lane, y) in row.iter().enumerate() {
            let expected = if lane == 16 { level } else { 0 };
            assert_eq!(y.to_bits(), expected, "lane {lane}");
        }
    }
}
