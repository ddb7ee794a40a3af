//! Cases about the ends of segments and stages within a block, of several
//! voices at once.

use super::Case;
use crate::banks::calls::Call;
use crate::fixed::{NONE, SAMPLE};
use crate::rust::envelope::{EnvelopeParams, Stage};

/// Voice 0 in a long attack, its neighbour through all stages.
pub(super) fn neighbour(case: &mut Case) -> bool {
    let rows = |case: &mut Case, frames: usize| {
        case.open(
            2,
            EnvelopeParams {
                attack: 64.0,
                attack_curve: 0.75,
                ..NONE
            },
        );
        case.set(1, SAMPLE);
        case.note(0);
        case.note(1);
        let mut lanes = vec![Vec::new(); 16];
        for _ in 0..24 / frames {
            for (lane, levels) in lanes.iter_mut().zip(case.frames(frames)) {
                lane.extend(levels);
            }
        }
        lanes
    };
    let (block, single) = (rows(case, 24), rows(case, 1));
    block == single && case.stands(1, Stage::Sustain, 0.5) && case.rest(0) == 40
}

pub(super) fn two_ends(case: &mut Case) -> bool {
    case.open(
        18,
        EnvelopeParams {
            decay: 5.0,
            sustain: 0.0,
            ..NONE
        },
    );
    case.set(
        17,
        EnvelopeParams {
            attack: 2.0,
            hold: 3.0,
            decay: 2.0,
            sustain: 0.0,
            ..NONE
        },
    );
    case.note(0);
    case.note(3);
    case.note(17);
    // In the fifth frame the decays of 0 and 3 end, and 17's hold.
    let lanes = case.frames(4);
    let last = (0..18).filter(|voice| case.rest(*voice) == 1).count() == 3;
    case.frames(5);
    last && lanes[0] == lanes[3] && case.stands(0, Stage::Sustain, 0.0) && {
        case.ask(Call::Release(17));
        case.stands(17, Stage::Idle, 0.0)
    }
}

/// An attack of v samples on voice v, all in one block.
pub(super) fn every_frame(case: &mut Case) -> bool {
    case.open(64, NONE);
    for voice in 0..64_u8 {
        let attack = f32::from(voice);
        case.set(
            voice.into(),
            EnvelopeParams {
                attack,
                hold: 64.0 - attack,
                ..NONE
            },
        );
        case.note(voice.into());
    }
    let lanes = case.frames(64);
    let full = |lane: &[f32]| lane.iter().position(|level| *level >= 1.0);
    let reached = lanes.iter().map(|lane| full(lane));
    reached.eq((0..64).map(Some)) && (0..64).all(|voice| case.stands(voice, Stage::Sustain, 0.5))
}

/// The second stage has a segment of one sample more, in which it ends.
pub(super) fn long(case: &mut Case) -> bool {
    let settings = |attack| EnvelopeParams {
        attack,
        hold: 2.0,
        attack_curve: 0.25,
        ..NONE
    };
    case.open(3, settings(16_384.0));
    case.set(1, settings(16_385.0));
    case.set(2, settings(9.0));
    for voice in 0..3 {
        case.note(voice);
    }
    case.frames(16_383);
    let last = case.rest(0) == 1 && case.0.bank().left(1) == 1 && case.rest(1) == 2;
    case.frames(1);
    let next = case.stands(0, Stage::Hold, 1.0) && case.0.bank().stage(1) == Stage::Attack;
    case.frames(1);
    last && next && case.stands(1, Stage::Hold, 1.0) && case.rest(0) == 1
}

/// From below zero a release is made longer: its second segment begins at less
/// than half the least number below 0, which narrows to -0, and no voice of
/// the group moves. Its levels are +0 all the same, by the formula; the Rust's
/// shortcut for such a group would hand out the base.
pub(super) fn negative_zero(case: &mut Case) -> bool {
    let settings = EnvelopeParams {
        sustain: f32::from_bits(3),
        release: 5.0,
        ..NONE
    };
    case.open(2, settings);
    case.note(1);
    case.ask(Call::Release(1));
    case.frames(4);
    case.set(
        1,
        EnvelopeParams {
            release: 20_004.0,
            ..settings
        },
    );
    case.frames(16_384);
    let inside = case.0.bank().voice(1).inside();
    let still = inside.scale == 0.0 && inside.base.to_bits() == 0x8000_0000;
    let zeros = case.frames(3)[1].iter().all(|level| level.to_bits() == 0);
    still && zeros && case.rest(1) == 3613
}
