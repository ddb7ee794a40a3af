//! Cases about voices that join others.

use super::Case;
use crate::banks::calls::Call;
use crate::calls::STAGES;
use crate::fixed::{NONE, SAMPLE};
use crate::rust::envelope::{EnvelopeParams, Stage, Trigger};

/// An attack of 8 samples from 0.
const RISING: EnvelopeParams = EnvelopeParams {
    attack: 8.0,
    release: 4.0,
    ..NONE
};

pub(super) fn chain(case: &mut Case) -> bool {
    case.open(4, RISING);
    case.note(0);
    case.frames(2);
    case.ask(Call::Join(1, 0));
    case.frames(1);
    case.ask(Call::Join(2, 1));
    case.ask(Call::Join(3, 2));
    let lanes = case.frames(3);
    lanes[0] == [0.375, 0.5, 0.625] && lanes[1..4].iter().all(|lane| *lane == lanes[0])
}

/// The same joins from the other end hand on nothing but what stood there.
pub(super) fn chain_from_its_end(case: &mut Case) -> bool {
    case.open(4, RISING);
    case.note(0);
    case.frames(2);
    case.ask(Call::Join(3, 2));
    case.ask(Call::Join(2, 1));
    case.ask(Call::Join(1, 0));
    let lanes = case.frames(3);
    lanes[1] == lanes[0] && lanes[2] == [0.0; 3] && lanes[3] == [0.0; 3]
}

pub(super) fn itself(case: &mut Case) -> bool {
    case.open(2, RISING);
    case.note(1);
    case.frames(3);
    let before = case.read_all();
    case.ask(Call::Join(1, 1));
    case.ask(Call::Join(0, 0));
    before == case.read_all() && case.frames(2)[1] == [0.375, 0.5]
}

pub(super) fn takes_settings(case: &mut Case) -> bool {
    case.open(2, SAMPLE);
    case.set(
        1,
        EnvelopeParams {
            release: 9.0,
            end: 0.25,
            ..RISING
        },
    );
    case.note(1);
    case.frames(2);
    case.ask(Call::Join(0, 1));
    let settings = case.0.bank().params(0) == case.0.bank().params(1);
    let tail = case.read(0).reply.tail;
    case.ask(Call::Release(0));
    // It ends where the other's settings have it.
    case.frames(9);
    settings && tail == 9 && case.stands(0, Stage::Idle, 0.25)
}

pub(super) fn settings_after(case: &mut Case) -> bool {
    case.open(3, RISING);
    case.note(0);
    case.frames(2);
    case.ask(Call::Join(2, 0));
    case.set(
        2,
        EnvelopeParams {
            attack: 4.0,
            ..RISING
        },
    );
    let apart = case.rest(0) == 6 && case.rest(2) == 2;
    let lanes = case.frames(3);
    apart && lanes[0] == [0.25, 0.375, 0.5] && lanes[2] == [0.25, 0.625, 0.5]
}

pub(super) fn notes_after(case: &mut Case) -> bool {
    case.open(2, RISING);
    case.note(0);
    case.frames(4);
    case.ask(Call::Join(1, 0));
    case.ask(Call::Release(0));
    case.frames(2);
    let parted = case.stands(0, Stage::Release, 0.25) && case.stands(1, Stage::Attack, 0.75);
    case.ask(Call::Trigger(0, Trigger::Retrigger));
    case.ask(Call::Reset(1));
    parted && case.stands(0, Stage::Attack, 0.25) && case.stands(1, Stage::Idle, 0.0)
}

/// Brings a voice to `stage`, which then has 9 samples if it is timed.
fn bring(case: &mut Case, voice: u64, stage: Stage) {
    let mut settings = EnvelopeParams {
        sustain: 0.75,
        ..NONE
    };
    match stage {
        Stage::Delay => settings.delay = 9.0,
        Stage::Attack => settings.attack = 9.0,
        Stage::Hold => settings.hold = 9.0,
        Stage::Decay => settings.decay = 9.0,
        Stage::Release => settings.release = 9.0,
        Stage::Idle | Stage::Sustain => {}
    }
    case.set(voice, settings);
    if stage != Stage::Idle {
        case.note(voice);
    }
    if stage == Stage::Release {
        case.ask(Call::Release(voice));
    }
}

/// Voices 0 to 6 stand in the stages, and each is joined by seven others that
/// stand in the stages too.
pub(super) fn stages(case: &mut Case) -> bool {
    case.open(56, NONE);
    for (voice, stage) in (0..).zip(STAGES.iter().cycle().take(56)) {
        bring(case, voice, *stage);
    }
    case.frames(2);
    let stand = (0..56).all(|voice| case.0.bank().stage(voice) == STAGES[voice % 7]);
    for voice in 7..56 {
        case.ask(Call::Join(voice, voice / 7 - 1));
    }
    let lanes = case.frames(3);
    let joined = |voice: usize| lanes[voice] == lanes[voice / 7 - 1];
    let stage = |voice: usize| case.0.bank().stage(voice) == STAGES[voice / 7 - 1];
    stand && (7..56).all(joined) && (7..56).all(stage)
}
