//! Cases about blocks: their lengths, and the ends of segments within them.

use super::{Case, NONE, SAMPLE};
use crate::rust::envelope::{EnvelopeParams, Stage};

pub(super) fn short_blocks(case: &mut Case) -> bool {
    case.note(SAMPLE);
    let mut levels = Vec::new();
    for frames in [0, 1, 0, 2, 1, 2, 0, 2, 1, 0] {
        levels.extend(case.frames(frames));
    }
    levels.len() == 9 && case.stands(Stage::Sustain, 0.5)
}

pub(super) fn long_blocks(case: &mut Case) -> bool {
    case.note(EnvelopeParams {
        attack: 32_769.0,
        attack_curve: 0.666,
        ..NONE
    });
    for frames in [0, 1, 16_384] {
        case.frames(frames);
    }
    let second = case.envelope().inside().left == 16_383;
    case.frames(16_385);
    second && case.stands(Stage::Sustain, 0.5)
}

pub(super) fn two_segments(case: &mut Case) -> bool {
    case.note(EnvelopeParams {
        attack: 16_385.0,
        hold: 2.0,
        attack_curve: 0.25,
        ..NONE
    });
    let first = case.envelope().inside().left == 16_384;
    case.frames(16_383);
    case.frames(1);
    let second = case.envelope().stage() == Stage::Attack && case.rest() == 1;
    case.frames(1);
    let held = case.stands(Stage::Hold, 1.0) && case.rest() == 2;
    case.frames(1);
    first && second && held && case.stands(Stage::Hold, 1.0)
}

pub(super) fn cut(case: &mut Case) -> bool {
    const FRAMES: u32 = 10;
    let settings = EnvelopeParams {
        attack_curve: 0.75,
        decay_curve: 0.125,
        ..SAMPLE
    };
    let mut first = None;
    (0..=FRAMES).all(|at| {
        case.note(settings);
        let mut levels = case.frames(at);
        levels.extend(case.frames(FRAMES - at));
        *first.get_or_insert_with(|| levels.clone()) == levels
    })
}

pub(super) fn cut_long(case: &mut Case) -> bool {
    const FRAMES: u32 = 16_400;
    let settings = EnvelopeParams {
        attack: 16_390.0,
        attack_curve: 0.9,
        ..SAMPLE
    };
    let mut first = None;
    [0, 1, 16_385, 16_386, 16_387, FRAMES].iter().all(|&at| {
        case.note(settings);
        let mut levels = case.frames(at);
        levels.extend(case.frames(FRAMES - at));
        *first.get_or_insert_with(|| levels.clone()) == levels
    })
}
