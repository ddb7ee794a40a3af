//! Cases about how many voices there are, and which are named.

use super::{Case, silent};
use crate::banks::calls::Call;
use crate::banks::refusals::{FRAMES, VOICE, VOICES};
use crate::fixed::{RATE_1000, SAMPLE};
use crate::reference::ACCEPTED;
use crate::rust::envelope::{EnvelopeParams, Trigger};

const LEVELS: [f32; 10] = [0.0, 0.0, 0.0, 0.25, 0.5, 0.75, 1.0, 1.0, 0.75, 0.5];

pub(super) fn the_sample(case: &mut Case) -> bool {
    case.open(1, SAMPLE);
    case.note(0);
    let lead = case.read(0).reply.lead;
    lead == 9 && case.frames(10)[0] == LEVELS
}

pub(super) fn the_last_voice(case: &mut Case) -> bool {
    case.open(17, SAMPLE);
    case.note(16);
    let lanes = case.frames(10);
    lanes.len() == 32 && lanes[16] == LEVELS && silent(&lanes[..16])
}

/// A bank of so many voices with a note on the last, and calls for voices that
/// there may not be. Answers whether exactly those are refused, and the stride
/// is `stride`.
fn counted(case: &mut Case, voices: u64, stride: u64) -> bool {
    case.open(voices, EnvelopeParams { end: 0.5, ..SAMPLE });
    case.note(voices.saturating_sub(1));
    let noted = case.refused(if voices == 0 { VOICE } else { ACCEPTED });
    case.frames(4);
    let numbers = [
        0,
        voices.saturating_sub(1),
        voices,
        63,
        64,
        1 << 32,
        u64::MAX,
    ];
    let answered = numbers.iter().all(|&voice| {
        let expected = if voice < voices { ACCEPTED } else { VOICE };
        named(case, voice).into_iter().all(|call| {
            case.ask(call);
            case.refused(expected)
        })
    });
    let reading = case.read(0);
    let length = case.frames(3).len() as u64;
    noted && answered && reading.voices == voices && reading.stride == stride && length == stride
}

/// Every call that names a voice, on `voice`.
fn named(case: &Case, voice: u64) -> Vec<Call> {
    let other = case.0.bank().voices().saturating_sub(1) as u64;
    // A join names two, of which the other is there unless there are none.
    vec![
        Call::Settings(voice, SAMPLE),
        Call::Trigger(voice, Trigger::Retrigger),
        Call::Release(voice),
        Call::Join(voice, other),
        Call::Join(other, voice),
        Call::Read(voice),
        Call::Reset(voice),
    ]
}

pub(super) fn none(case: &mut Case) -> bool {
    counted(case, 0, 16)
}

pub(super) fn one(case: &mut Case) -> bool {
    counted(case, 1, 16)
}

pub(super) fn sixteen(case: &mut Case) -> bool {
    counted(case, 16, 16)
}

pub(super) fn seventeen(case: &mut Case) -> bool {
    counted(case, 17, 32)
}

pub(super) fn all(case: &mut Case) -> bool {
    counted(case, 64, 64)
}

pub(super) fn too_many(case: &mut Case) -> bool {
    [65, 66, 1 << 32, u64::MAX].iter().all(|&voices| {
        case.open(3, SAMPLE);
        case.ask(Call::Open(voices, SAMPLE, RATE_1000));
        let refused = case.refused(VOICES);
        let reading = case.read(0);
        case.ask(Call::Process(17));
        let short = case.refused(FRAMES);
        let none = silent(&case.frames(2));
        refused && reading.voices == 0 && reading.stride == 16 && short && none
    })
}

/// Voices that hold 1 beside lanes that are +0.
pub(super) fn spare_lanes(case: &mut Case) -> bool {
    [1, 15, 17, 31, 33, 47, 49, 63].iter().all(|&voices| {
        case.open(voices, EnvelopeParams { end: 1.0, ..SAMPLE });
        case.note(0);
        case.ask(Call::SettingsForAll(EnvelopeParams {
            end: 1.0,
            start: 1.0,
            ..SAMPLE
        }));
        let lanes = case.frames(3);
        let (held, spare) = lanes.split_at(voices as usize);
        held[1..].iter().all(|lane| lane == &[1.0; 3]) && !spare.is_empty() && silent(spare)
    })
}
