//! Cases about the length of the output.

use super::Case;
use crate::banks::calls::{Call, LONGEST, before};
use crate::banks::refusals::FRAMES;
use crate::fixed::SAMPLE;
use crate::reference::ACCEPTED;
use crate::rust::envelope::{EnvelopeParams, Stage};

/// One output of so many levels: whether it is refused, and then all of it
/// kept.
fn is_kept(case: &mut Case, levels: u32) -> bool {
    let output = case.ask(Call::Process(levels));
    let kept = output
        .iter()
        .enumerate()
        .all(|(at, level)| *level == before(at));
    case.refused(FRAMES) && kept && output.len() == levels as usize
}

pub(super) fn lengths(case: &mut Case) -> bool {
    let mut shown = true;
    for (voices, stride) in [(3, 16), (17, 32), (64, 64)] {
        case.open(voices, SAMPLE);
        case.note(1);
        case.frames(3);
        let stood = case.read_all();
        for levels in [
            1,
            stride / 2,
            stride - 1,
            stride + 1,
            3 * stride / 2,
            3 * stride - 1,
            3 * stride + 1,
        ] {
            shown &= is_kept(case, levels);
        }
        shown &= case.ask(Call::Process(0)).is_empty() && case.refused(ACCEPTED);
        shown &= stood == case.read_all() && case.stands(1, Stage::Attack, 0.25);
        shown &= case.frames(1)[1] == [0.25] && case.frames(2)[1] == [0.5, 0.75];
    }
    shown
}

/// 64 voices and 4,096 frames, within which every stage ends.
pub(super) fn longest(case: &mut Case) -> bool {
    case.open(
        64,
        EnvelopeParams {
            attack: 1000.0,
            decay: 2000.0,
            ..SAMPLE
        },
    );
    for voice in (0..64).step_by(3) {
        case.note(voice);
        case.frames(7);
    }
    let output = case.ask(Call::Process(LONGEST)).len();
    let idle = case.stands(1, Stage::Idle, 0.0);
    output == LONGEST as usize && idle && case.stands(63, Stage::Sustain, 0.5)
}
