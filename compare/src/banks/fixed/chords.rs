//! Cases about chords: the voices that they start, and lists that are refused
//! whole.

use super::Case;
use crate::banks::calls::{Call, MOST_ENTRIES};
use crate::banks::refusals::{CHORD, VOICE};
use crate::calls::{STAGES, TRIGGERS};
use crate::fixed::SAMPLE;
use crate::reference::ACCEPTED;
use crate::rust::envelope::{EnvelopeParams, Stage, StealRestart, Trigger};

/// Stages of 20 samples, a release of 40.
const SETTINGS: EnvelopeParams = EnvelopeParams {
    delay: 20.0,
    attack: 20.0,
    hold: 20.0,
    decay: 20.0,
    release: 40.0,
    start: 0.125,
    ..SAMPLE
};

/// So many voices, which are in every stage.
const SOME: u64 = 20;

/// The settings of a voice. Every kind of trigger starts it anew if it is idle
/// or its legato is inverted, as of voices 0 and 7 to 13.
fn settings(voice: u64) -> EnvelopeParams {
    EnvelopeParams {
        legato_inverted: voice / 7 % 2 == 1,
        steal_restart: match voice / 14 % 2 {
            0 => StealRestart::CurrentLevel,
            _ => StealRestart::StartLevel,
        },
        ..SETTINGS
    }
}

/// The stage in which the cases have a voice.
fn stage(voice: u64) -> Stage {
    STAGES[voice as usize % 7]
}

/// A bank of idle voices with their settings.
fn idle(case: &mut Case, voices: u64) {
    case.open(voices, SETTINGS);
    for voice in 0..voices {
        case.set(voice, settings(voice));
    }
}

/// A call on each voice that the cases have in this stage.
fn on_each(case: &mut Case, voices: u64, of: Stage, call: fn(u64) -> Call) {
    for voice in (0..voices).filter(|voice| stage(*voice) == of) {
        case.ask(call(voice));
    }
}

/// A bank whose voices are in the middle of their stages.
fn in_every_stage(case: &mut Case, voices: u64) {
    idle(case, voices);
    for (of, frames) in [
        (Stage::Sustain, 20),
        (Stage::Release, 10),
        (Stage::Decay, 20),
        (Stage::Hold, 20),
        (Stage::Attack, 20),
        (Stage::Delay, 0),
    ] {
        on_each(case, voices, of, |voice| Call::Trigger(voice, Trigger::New));
        case.frames(frames);
    }
    on_each(case, voices, Stage::Release, Call::Release);
    case.frames(10);
}

/// The numbers below a power of 2, in another order. Of 64 the first and the
/// last are idle voices.
fn scattered(count: u64) -> Vec<u64> {
    (0..count).map(|at| (7 + 43 * at) % count).collect()
}

/// Whether a chord on such a bank leaves what single triggers leave, after it and
/// three frames later.
fn is_single_triggers(case: &mut Case, voices: u64, named: &[u64], trigger: Trigger) -> bool {
    in_every_stage(case, voices);
    let stand = (0..voices).all(|voice| case.0.bank().stage(voice as usize) == stage(voice));
    case.chord(named, trigger);
    let accepted = case.refused(ACCEPTED);
    let left = (case.read_all(), case.frames(3));
    in_every_stage(case, voices);
    let before = case.read_all();
    for voice in named {
        case.ask(Call::Trigger(*voice, trigger));
    }
    let single = case.read_all();
    stand && accepted && before != single && left == (single, case.frames(3))
}

/// Whether a chord of each kind is answered with `number` and leaves every
/// voice, as the next frame has it too.
fn keeps(case: &mut Case, named: &[u64], number: u32) -> bool {
    TRIGGERS.into_iter().all(|trigger| {
        let stood = case.read_all();
        case.chord(named, trigger);
        let answered = case.refused(number);
        let kept = stood == case.read_all();
        case.frames(1);
        answered && kept
    })
}

pub(super) fn of_none(case: &mut Case) -> bool {
    [0, 1, SOME, 64].into_iter().all(|voices| {
        in_every_stage(case, voices);
        keeps(case, &[], ACCEPTED)
    })
}

/// The first, the last and one between.
pub(super) fn of_one(case: &mut Case) -> bool {
    [0, 12, 21].into_iter().all(|voice| {
        TRIGGERS
            .into_iter()
            .all(|trigger| is_single_triggers(case, 22, &[voice], trigger))
    })
}

pub(super) fn of_some(case: &mut Case) -> bool {
    let backwards: Vec<u64> = (0..28).rev().collect();
    [[12, 0, 7].as_slice(), &[13, 20, 27], &backwards]
        .into_iter()
        .all(|named| {
            TRIGGERS
                .into_iter()
                .all(|trigger| is_single_triggers(case, 28, named, trigger))
        })
}

pub(super) fn of_all(case: &mut Case) -> bool {
    let scattered = scattered(64);
    TRIGGERS
        .into_iter()
        .all(|trigger| is_single_triggers(case, 64, &scattered, trigger))
}

/// Each once, so that one has to be missing, and with none missing.
pub(super) fn too_long(case: &mut Case) -> bool {
    let first_missing: Vec<u64> = (0..65).rev().collect();
    let none_missing: Vec<u64> = (0..65).map(|at| at % 64).collect();
    let all_missing: Vec<u64> = (u64::MAX - 64..=u64::MAX).collect();
    let longest = scattered(MOST_ENTRIES as u64);
    in_every_stage(case, 64);
    [first_missing, none_missing, all_missing, longest]
        .iter()
        .all(|named| keeps(case, named, CHORD))
}

/// The same voice at neighbouring places, at the ends and in between.
pub(super) fn twice(case: &mut Case) -> bool {
    let last: Vec<u64> = (0..SOME).chain([SOME - 1]).collect();
    let ends: Vec<u64> = (0..SOME).chain([0]).collect();
    in_every_stage(case, SOME);
    [[4, 4].as_slice(), &[9, 3, 5, 3, 7], &last, &ends]
        .into_iter()
        .all(|named| keeps(case, named, CHORD))
}

/// Whether or not a bank has room for such a voice.
pub(super) fn missing_twice(case: &mut Case) -> bool {
    in_every_stage(case, SOME);
    [
        [SOME, SOME].as_slice(),
        &[63, 0, 63],
        &[64, 64],
        &[100, 3, 5, 100],
        &[200, 100, 200],
        &[1 << 32, 7, 1 << 32],
        &[u64::MAX, 0, 1, u64::MAX],
    ]
    .into_iter()
    .all(|named| keeps(case, named, CHORD))
}

/// At each place, beside voices that every kind would start; and numbers that
/// are a voice's in their lower bits alone.
pub(super) fn missing(case: &mut Case) -> bool {
    in_every_stage(case, SOME);
    [
        [SOME].as_slice(),
        &[SOME, 0, 12],
        &[0, 63, 12],
        &[0, 12, 64],
        &[0, 12, u64::MAX],
        &[0, 64],
        &[64 + 12, 12],
        &[0, 1 << 32, 12],
        &[SOME, 0, 63, 12, 64, 100, u64::MAX],
    ]
    .into_iter()
    .all(|named| keeps(case, named, VOICE))
}

/// A voice that is twice there and one that is missing, in every order.
pub(super) fn twice_and_missing(case: &mut Case) -> bool {
    in_every_stage(case, SOME);
    [
        [SOME, 12, 12].as_slice(),
        &[12, SOME, 12],
        &[12, 12, SOME],
        &[100, 0, 12, 0],
        &[0, 0, 12, u64::MAX],
        &[100, 100, 12, 12],
    ]
    .into_iter()
    .all(|named| keeps(case, named, CHORD))
}

/// Chords on three voices between blocks, in a list that is short enough to be
/// stored.
pub(super) fn short(case: &mut Case) -> bool {
    case.open(3, SAMPLE);
    case.chord(&[2, 0], Trigger::New);
    case.frames(4);
    let begun = case.stands(0, Stage::Attack, 0.5) && case.stands(2, Stage::Attack, 0.5);
    let idle = case.stands(1, Stage::Idle, 0.0);
    case.chord(&[1, 2], Trigger::Legato);
    case.frames(3);
    let went_on = case.stands(2, Stage::Decay, 1.0) && case.stands(1, Stage::Attack, 0.25);
    case.chord(&[], Trigger::New);
    let long: Vec<u64> = (0..65).collect();
    let refused = [
        ([0, 0].as_slice(), CHORD),
        (&[9, 1, 9], CHORD),
        (&[3, 1, 1], CHORD),
        (&long, CHORD),
        (&[0, 1, 3], VOICE),
    ];
    let answered = refused.iter().all(|(named, number)| {
        case.chord(named, Trigger::Retrigger);
        case.refused(*number)
    });
    case.read_all();
    case.chord(&[2, 1, 0], Trigger::Retrigger);
    let anew = case.stands(2, Stage::Delay, 1.0);
    case.frames(3);
    begun && idle && went_on && answered && anew
}
