//! Cases about settings and timing that change in the middle of a stage, or
//! are refused.

use super::{Case, NONE, RATE_1000, SAMPLE};
use crate::calls::Call;
use crate::reference::{LIMIT, RATE, TIME};
use crate::rust::envelope::{EnvelopeParams, Stage, Timing, Trigger};

pub(super) fn start_in_delay(case: &mut Case) -> bool {
    case.note(EnvelopeParams {
        delay: 4.0,
        attack: 4.0,
        ..NONE
    });
    case.frames(2);
    case.set(EnvelopeParams {
        start: 0.5,
        ..*case.envelope().params()
    });
    let untouched = case.stands(Stage::Delay, 0.0) && case.rest() == 2;
    untouched && case.lead() == Some(6) && case.frames(5) == [0.0, 0.0, 0.0, 0.25, 0.5]
}

pub(super) fn holding_moved(case: &mut Case) -> bool {
    case.fresh(NONE);
    case.set(EnvelopeParams { end: 0.25, ..NONE });
    let end = case.stands(Stage::Idle, 0.25);
    case.trigger(Trigger::New);
    case.set(EnvelopeParams {
        sustain: 0.75,
        ..NONE
    });
    end && case.stands(Stage::Sustain, 0.75) && case.frames(1) == [0.75]
}

pub(super) fn rate_in_decay(case: &mut Case) -> bool {
    case.note(EnvelopeParams {
        decay: 8.0,
        sustain: 0.0,
        ..NONE
    });
    case.frames(4);
    // What has passed is not measured anew: 4 of 16 samples, then of 4.
    case.ask(Call::Timing(Timing::new(2000.0)));
    let longer = case.stands(Stage::Decay, 0.5) && case.lead() == Some(12);
    case.ask(Call::Timing(Timing::new(500.0)));
    longer && case.stands(Stage::Sustain, 0.0)
}

/// A decay of 4, changed to `decay` after 3 samples.
fn replanned(case: &mut Case, decay: f32) {
    let settings = EnvelopeParams { decay: 4.0, ..NONE };
    case.note(settings);
    case.frames(3);
    case.set(EnvelopeParams { decay, ..settings });
}

pub(super) fn replanned_to_end(case: &mut Case) -> bool {
    replanned(case, 3.0);
    case.stands(Stage::Sustain, 0.5)
}

pub(super) fn replanned_to_last(case: &mut Case) -> bool {
    replanned(case, 5.0);
    let longer = case.stands(Stage::Decay, 0.625) && case.lead() == Some(2);
    longer && case.frames(3) == [0.625, 0.5625, 0.5]
}

pub(super) fn untouched(case: &mut Case) -> bool {
    case.note(SAMPLE);
    case.frames(4);
    case.set(EnvelopeParams {
        delay: 9.0,
        hold: 3.0,
        decay_curve: 0.75,
        start: 0.125,
        legato_inverted: true,
        ..SAMPLE
    });
    // Only the present stage is compared, and the attack is as it was.
    case.stands(Stage::Attack, 0.5) && case.lead() == Some(7) && case.frames(2) == [0.5, 0.75]
}

pub(super) fn fresh_refused(case: &mut Case) -> bool {
    let (long, fast) = (LIMIT.next_up(), f64::from(LIMIT).next_up());
    let too_long = EnvelopeParams {
        release: long,
        ..SAMPLE
    };
    case.ask(Call::Fresh(too_long, Timing::new(fast)));
    let rate_first = case.refused(RATE);
    case.ask(Call::Fresh(SAMPLE, Timing::new(f64::INFINITY)));
    let rate = case.refused(RATE);
    case.fresh(too_long);
    let time = case.refused(TIME) && *case.envelope().params() == EnvelopeParams::AMP;
    // Of the Rust's amplifier settings at rate 0 no stage takes time.
    case.trigger(Trigger::New);
    let plain = case.stands(Stage::Sustain, 1.0) && case.tail() == Some(0);
    case.ask(Call::Timing(RATE_1000));
    rate_first && rate && time && plain && case.tail() == Some(15)
}

pub(super) fn changes_refused(case: &mut Case) -> bool {
    case.note(SAMPLE);
    case.frames(3);
    let mut refused = true;
    for number in 0..5 {
        let mut settings = EnvelopeParams {
            attack: 9.0,
            sustain: 1.0,
            ..SAMPLE
        };
        let times = [
            &mut settings.delay,
            &mut settings.attack,
            &mut settings.hold,
            &mut settings.decay,
            &mut settings.release,
        ];
        for (time, of) in times.into_iter().zip(0..) {
            if of == number {
                *time = LIMIT.next_up();
            }
        }
        case.set(settings);
        refused &= case.refused(TIME);
        case.ask(Call::Timing(Timing::new(f64::from(LIMIT).next_up())));
        refused &= case.refused(RATE);
    }
    refused && case.stands(Stage::Attack, 0.25) && case.frames(2) == [0.25, 0.5]
}
