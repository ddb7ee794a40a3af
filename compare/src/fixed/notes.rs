//! Cases about notes: the stages that a trigger or a release begins, and where
//! an attack joins its curve.

use super::{Case, NONE, RATE_1000, SAMPLE};
use crate::calls::{Call, Note};
use crate::reference::{ACCEPTED, LIMIT, RATE, TIME};
use crate::rust::envelope::{EnvelopeParams, Stage, StealRestart, TimeUnit, Timing, Trigger};

pub(super) fn the_sample(case: &mut Case) -> bool {
    case.note(SAMPLE);
    let lead = case.lead();
    let levels = case.frames(10);
    lead == Some(9)
        && levels == [0.0, 0.0, 0.0, 0.25, 0.5, 0.75, 1.0, 1.0, 0.75, 0.5]
        && case.tail() == Some(2)
}

pub(super) fn one_by_one(case: &mut Case) -> bool {
    case.note(SAMPLE);
    let mut stages = Vec::new();
    for frame in 0..14 {
        if frame == 11 {
            case.ask(Call::Release);
        }
        stages.push(case.envelope().stage());
        case.ask(Call::NextLevel);
    }
    stages.dedup();
    stages.len() == 7 && case.stands(Stage::Idle, 0.0)
}

pub(super) fn reset(case: &mut Case) -> bool {
    case.note(EnvelopeParams {
        end: 0.25,
        ..SAMPLE
    });
    case.frames(4);
    case.ask(Call::Reset);
    let at_once = case.stands(Stage::Idle, 0.25) && case.lead() == Some(0);
    at_once && case.frames(2) == [0.25, 0.25]
}

/// A note of each kind, then one that may change neither settings nor timing.
pub(super) fn lent(case: &mut Case) -> bool {
    let note = |trigger, settings, timing| {
        Call::Note(Note {
            trigger,
            frames: 5,
            settings,
            timing,
        })
    };
    let levels = [0.0, 0.0, 0.0, 0.25, 0.5, 0.75];
    let settings = EnvelopeParams {
        release: 4.0,
        ..SAMPLE
    };
    case.fresh(SAMPLE);
    let mut shown = true;
    for trigger in [Trigger::New, Trigger::Retrigger, Trigger::Legato] {
        shown &= case.ask(note(trigger, settings, RATE_1000)) == levels;
        shown &= case.refused(ACCEPTED) && case.stands(Stage::Release, 1.0);
        shown &= case.frames(2) == [1.0, 0.75] && case.tail() == Some(4);
    }
    let slow = EnvelopeParams {
        release: LIMIT.next_up(),
        ..SAMPLE
    };
    let fast = Timing::new(f64::from(LIMIT).next_up());
    for (settings, timing, number) in [
        (slow, RATE_1000, TIME),
        (settings, fast, RATE),
        (slow, fast, RATE),
    ] {
        shown &= case.ask(note(Trigger::New, settings, timing)) == levels;
        shown &= case.refused(number) && case.tail() == Some(4);
    }
    shown
}

/// A voice that is 2 of 8 samples into its release.
fn releasing(case: &mut Case, legato_inverted: bool) {
    case.note(EnvelopeParams {
        attack: 4.0,
        release: 8.0,
        sustain: 1.0,
        legato_inverted,
        ..NONE
    });
    case.frames(4);
    case.ask(Call::Release);
    case.frames(2);
}

pub(super) fn legato_in_release(case: &mut Case) -> bool {
    releasing(case, false);
    case.trigger(Trigger::Legato);
    // A second release does nothing either.
    case.ask(Call::Release);
    let left_alone = case.stands(Stage::Release, 0.75) && case.rest() == 6;
    case.frames(6);
    let ended = case.stands(Stage::Idle, 0.0);
    // On an idle voice it is a note like any other.
    case.trigger(Trigger::Legato);
    left_alone && ended && case.stands(Stage::Attack, 0.0)
}

pub(super) fn inverted_in_release(case: &mut Case) -> bool {
    releasing(case, true);
    case.trigger(Trigger::Legato);
    case.stands(Stage::Attack, 0.75) && case.rest() == 1 && case.frames(2) == [0.75, 1.0]
}

/// A note and a retrigger after 8 frames.
fn retriggered(case: &mut Case, settings: EnvelopeParams) {
    case.note(settings);
    case.frames(8);
    case.trigger(Trigger::Retrigger);
}

pub(super) fn attack_skipped(case: &mut Case) -> bool {
    retriggered(
        case,
        EnvelopeParams {
            attack: 1.0,
            decay: 3.0,
            sustain: 0.75,
            ..NONE
        },
    );
    case.stands(Stage::Decay, 1.0) && case.lead() == Some(3) && case.frames(3)[0] == 1.0
}

pub(super) fn attack_taken(case: &mut Case) -> bool {
    retriggered(
        case,
        EnvelopeParams {
            delay: 1.0,
            attack: 1.0,
            decay: 3.0,
            sustain: 0.25,
            ..NONE
        },
    );
    // Joined at place 0, so it begins at the start level and not at 0.25.
    case.lead() == Some(5) && case.frames(3) == [0.25, 0.0, 1.0]
}

pub(super) fn start_at_one(case: &mut Case) -> bool {
    case.note(EnvelopeParams {
        attack: 4.0,
        decay: 2.0,
        start: 1.0,
        ..NONE
    });
    let whole = case.stands(Stage::Attack, 1.0) && case.rest() == 4;
    whole && case.frames(6) == [1.0, 1.0, 1.0, 1.0, 1.0, 0.75]
}

pub(super) fn below_start(case: &mut Case) -> bool {
    retriggered(
        case,
        EnvelopeParams {
            attack: 4.0,
            start: 0.5,
            sustain: 0.25,
            ..NONE
        },
    );
    let whole = case.stands(Stage::Attack, 0.25) && case.rest() == 4;
    whole && case.frames(4) == [0.25, 0.4375, 0.625, 0.8125]
}

pub(super) fn from_start(case: &mut Case) -> bool {
    retriggered(
        case,
        EnvelopeParams {
            attack: 4.0,
            start: 0.25,
            sustain: 0.75,
            steal_restart: StealRestart::StartLevel,
            ..NONE
        },
    );
    case.stands(Stage::Attack, 0.25) && case.rest() == 4
}

pub(super) fn joined(case: &mut Case) -> bool {
    retriggered(
        case,
        EnvelopeParams {
            attack: 4.0,
            decay: 2.0,
            sustain: 0.375,
            ..NONE
        },
    );
    let place_2 = case.stands(Stage::Attack, 0.5) && case.rest() == 2;
    place_2 && case.lead() == Some(4) && case.frames(2) == [0.5, 0.75]
}

pub(super) fn joined_bent(case: &mut Case) -> bool {
    retriggered(
        case,
        EnvelopeParams {
            delay: 2.0,
            attack: 40.0,
            attack_curve: 0.9,
            start: 0.125,
            sustain: 0.5,
            ..NONE
        },
    );
    case.frames(60);
    case.trigger(Trigger::Retrigger);
    let lead = case.lead();
    let levels = case.frames(4);
    let jump = (levels[2] - 0.5).abs();
    lead > Some(2) && lead < Some(42) && jump > 0.0 && jump < 0.1
}

/// The level times the count is the last number below 0.5, exactly: 69,431 ×
/// 129,728,784,761 is 2^53 - 1. It rounds to place 0, but adding a half and
/// flooring would give 1.
pub(super) fn joined_below_half(case: &mut Case) -> bool {
    const COUNT: u64 = 129_728_784_761;
    let settings = EnvelopeParams {
        unit: TimeUnit::Tempo,
        attack: 60_000.0,
        sustain: 69_431.0 / (1_u64 << 54) as f32,
        ..NONE
    };
    case.fresh(settings);
    let rate = COUNT as f64 / 3_600_000.0;
    case.trigger(Trigger::New);
    case.set(EnvelopeParams {
        attack: 0.0,
        ..settings
    });
    case.ask(Call::Timing(Timing::new(rate).with_tempo(1.0)));
    case.set(settings);
    let product = f64::from(case.envelope().level()) * COUNT as f64;
    case.trigger(Trigger::Retrigger);
    let begun = case.stands(Stage::Attack, 0.0) && case.lead() == Some(COUNT);
    case.frames(2);
    begun && product.to_bits() == 0.5_f64.next_down().to_bits()
}

pub(super) fn zero_times(case: &mut Case) -> bool {
    let mut leads = Vec::new();
    for zeros in 0..32_u8 {
        let time = |bit: u8, count: f32| if zeros >> bit & 1 == 1 { 0.0 } else { count };
        case.note(EnvelopeParams {
            delay: time(0, 1.0),
            attack: time(1, 2.0),
            hold: time(2, 1.0),
            decay: time(3, 2.0),
            release: time(4, 2.0),
            ..SAMPLE
        });
        leads.extend(case.lead());
        case.frames(7);
        case.ask(Call::Release);
        case.frames(3);
    }
    leads.len() == 32 && leads[0] == 6 && leads[15] == 0 && case.stands(Stage::Idle, 0.0)
}
