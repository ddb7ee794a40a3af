//! Cases about settings, timing and notes that meet some voices in the middle
//! of a stage and others not.

use super::Case;
use crate::banks::calls::Call;
use crate::fixed::{NONE, SAMPLE};
use crate::rust::envelope::{EnvelopeParams, Stage, Timing, Trigger};

/// A decay of 8 samples to 0.
const FALLING: EnvelopeParams = EnvelopeParams {
    decay: 8.0,
    sustain: 0.0,
    release: 8.0,
    ..NONE
};

/// Voice 0 four samples into its decay, the last one two, voice 1 idle.
fn falling(case: &mut Case, voices: u64) {
    case.open(voices, FALLING);
    case.note(0);
    case.frames(2);
    case.note(voices - 1);
    case.frames(2);
}

pub(super) fn for_all(case: &mut Case) -> bool {
    falling(case, 17);
    case.ask(Call::SettingsForAll(EnvelopeParams {
        decay: 4.0,
        end: 0.125,
        ..FALLING
    }));
    let ended = case.stands(0, Stage::Sustain, 0.0);
    let shorter = case.stands(16, Stage::Decay, 0.75) && case.rest(16) == 2;
    let idle = (1..16).all(|voice| case.stands(voice, Stage::Idle, 0.125));
    let lanes = case.frames(3);
    ended && shorter && idle && lanes[16] == [0.75, 0.375, 0.0]
}

pub(super) fn for_one(case: &mut Case) -> bool {
    case.open(3, FALLING);
    for voice in 0..3 {
        case.note(voice);
    }
    case.frames(4);
    case.set(
        1,
        EnvelopeParams {
            sustain: 1.0,
            ..FALLING
        },
    );
    let lanes = case.frames(2);
    lanes[0] == [0.5, 0.375] && lanes[1] == [0.5, 0.625] && lanes[2] == lanes[0]
}

/// What has passed is not measured anew: 4 and 2 samples of 16.
pub(super) fn timing(case: &mut Case) -> bool {
    falling(case, 33);
    case.ask(Call::Timing(Timing::new(2000.0)));
    let longer = case.rest(0) == 12 && case.rest(32) == 14 && case.read(0).reply.lead == 12;
    case.frames(2);
    case.ask(Call::Timing(Timing::new(500.0)));
    let ended = case.stands(0, Stage::Sustain, 0.0) && case.stands(32, Stage::Sustain, 0.0);
    // A later note goes by the timing of all.
    case.note(5);
    longer && ended && case.rest(5) == 4 && case.read(5).reply.tail == 4
}

pub(super) fn triggers(case: &mut Case) -> bool {
    case.open(4, SAMPLE);
    case.set(
        3,
        EnvelopeParams {
            legato_inverted: true,
            ..SAMPLE
        },
    );
    for (voice, trigger) in (0..).zip([Trigger::New, Trigger::Retrigger, Trigger::Legato]) {
        case.ask(Call::Trigger(voice, trigger));
    }
    case.ask(Call::Trigger(3, Trigger::Legato));
    case.frames(4);
    let begun = (0..4).all(|voice| case.stands(voice, Stage::Attack, 0.5));
    case.note(0);
    case.ask(Call::Trigger(1, Trigger::Retrigger));
    case.ask(Call::Trigger(2, Trigger::Legato));
    case.ask(Call::Trigger(3, Trigger::Legato));
    let lanes = case.frames(2);
    let went_on = lanes[2] == [0.5, 0.75] && case.stands(2, Stage::Hold, 1.0);
    let anew = lanes[0] == [0.0, 0.0] && lanes[1] == [0.5, 0.5] && lanes[3] == lanes[1];
    begun && went_on && anew
}
