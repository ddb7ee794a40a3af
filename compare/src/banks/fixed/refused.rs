//! Cases about refusals: their numbers, their order, and what they leave.

use super::{Case, silent};
use crate::banks::calls::Call;
use crate::banks::refusals::{FRAMES, VOICE, VOICES};
use crate::fixed::{RATE_1000, SAMPLE};
use crate::reference::{ACCEPTED, LIMIT, RATE, TIME};
use crate::rust::envelope::{EnvelopeParams, Stage, Timing, Trigger};

/// The last of the times over its limit.
const LONG: EnvelopeParams = EnvelopeParams {
    release: LIMIT.next_up(),
    ..SAMPLE
};

fn fast() -> Timing {
    Timing::new(f64::from(LIMIT).next_up())
}

pub(super) fn openings(case: &mut Case) -> bool {
    let openings = [
        (65, LONG, fast(), VOICES),
        (65, SAMPLE, RATE_1000, VOICES),
        (64, LONG, fast(), RATE),
        (0, LONG, fast(), RATE),
        (64, LONG, RATE_1000, TIME),
        (0, LONG, RATE_1000, TIME),
        (64, SAMPLE, RATE_1000, ACCEPTED),
    ];
    openings.iter().all(|&(voices, settings, timing, number)| {
        case.ask(Call::Open(voices, settings, timing));
        let answered = case.refused(number);
        let voices = case.read(0).voices;
        case.frames(1);
        answered && voices == if number == ACCEPTED { 64 } else { 0 }
    })
}

/// Nothing of an earlier bank is left, and the calls for all are accepted.
pub(super) fn takes_the_bank(case: &mut Case) -> bool {
    case.open(17, EnvelopeParams { end: 1.0, ..SAMPLE });
    case.note(2);
    case.frames(3);
    case.ask(Call::Open(17, LONG, RATE_1000));
    let refused = case.refused(TIME);
    let reading = case.read(2);
    case.ask(Call::SettingsForAll(SAMPLE));
    let settings = case.refused(ACCEPTED);
    case.ask(Call::Timing(RATE_1000));
    let timing = case.refused(ACCEPTED);
    case.ask(Call::Join(0, 0));
    let join = case.refused(VOICE);
    let lanes = case.frames(2);
    refused
        && reading.stride == 16
        && settings
        && timing
        && join
        && silent(&lanes)
        && lanes.len() == 16
}

/// Every call that a bank of three voices refuses, with its number.
fn refused_calls() -> Vec<(Call, u32)> {
    let mut calls = vec![
        (Call::Settings(3, LONG), VOICE),
        (Call::SettingsForAll(LONG), TIME),
        (Call::Timing(fast()), RATE),
        (Call::Timing(Timing::new(f64::INFINITY)), RATE),
        (Call::Process(17), FRAMES),
        (Call::Process(15), FRAMES),
    ];
    for settings in too_long() {
        calls.push((Call::Settings(1, settings), TIME));
    }
    for voice in [3, 16, 63, 64, 1 << 32, u64::MAX] {
        for trigger in [Trigger::New, Trigger::Retrigger, Trigger::Legato] {
            calls.push((Call::Trigger(voice, trigger), VOICE));
        }
        for call in [
            Call::Settings(voice, SAMPLE),
            Call::Release(voice),
            Call::Reset(voice),
            Call::Join(voice, 0),
            Call::Join(0, voice),
            Call::Join(voice, voice),
            Call::Read(voice),
        ] {
            calls.push((call, VOICE));
        }
    }
    calls
}

/// Settings that differ in everything, each with another time over its limit.
fn too_long() -> [EnvelopeParams; 5] {
    let other = EnvelopeParams {
        attack: 9.0,
        sustain: 1.0,
        start: 1.0,
        ..SAMPLE
    };
    let over = LIMIT.next_up();
    [
        EnvelopeParams {
            delay: over,
            ..other
        },
        EnvelopeParams {
            attack: over,
            ..other
        },
        EnvelopeParams {
            hold: over,
            ..other
        },
        EnvelopeParams {
            decay: over,
            ..other
        },
        EnvelopeParams {
            release: over,
            ..other
        },
    ]
}

pub(super) fn nothing_moved(case: &mut Case) -> bool {
    case.open(3, SAMPLE);
    case.note(1);
    case.frames(4);
    case.note(2);
    let stood = case.read_all();
    let refused = refused_calls().into_iter().all(|(call, number)| {
        case.ask(call);
        case.refused(number)
    });
    let still = stood == case.read_all() && case.stands(1, Stage::Attack, 0.5);
    let lanes = case.frames(3);
    refused && still && lanes[1] == [0.5, 0.75, 1.0] && lanes[2] == [0.0; 3]
}
