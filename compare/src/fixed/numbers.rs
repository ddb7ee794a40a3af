//! Cases about numbers at their edges: the least levels, the longest times,
//! NaN, and halves.

use super::{Case, NONE, RATE_1000, SAMPLE};
use crate::calls::Call;
use crate::reference::{LIMIT, count};
use crate::rust::envelope::{EnvelopeParams, Stage, TimeUnit, Timing, Trigger};

/// Sustain at 3 × 2^-149 and 4 of 5 samples of a release, whose scale is 0.6
/// of the least number and rounds to all of it.
fn below_zero(case: &mut Case) -> Vec<f32> {
    case.note(EnvelopeParams {
        sustain: f32::from_bits(3),
        release: 5.0,
        ..NONE
    });
    case.ask(Call::Release);
    case.frames(4)
}

pub(super) fn subnormal_release(case: &mut Case) -> bool {
    let levels = below_zero(case);
    let negative = case.bits() == 0x8000_0001;
    case.frames(1);
    levels[3].to_bits() == 0 && negative && case.stands(Stage::Idle, 0.0)
}

/// From below zero the release is made longer: its second segment begins at
/// less than half the least number below 0, which narrows to -0. Its first
/// level is +0 all the same, by the formula.
pub(super) fn negative_zero(case: &mut Case) -> bool {
    below_zero(case);
    case.set(EnvelopeParams {
        release: 20_004.0,
        ..*case.envelope().params()
    });
    let below = case.stands(Stage::Release, f32::from_bits(0x8000_0001));
    case.frames(16_384);
    let base = case.envelope().inside().base.to_bits();
    let levels = case.frames(2);
    below && base == 0x8000_0000 && levels[0].to_bits() == 0 && case.rest() == 3614
}

pub(super) fn at_the_limit(case: &mut Case) -> bool {
    let longest = EnvelopeParams {
        unit: TimeUnit::Tempo,
        delay: LIMIT,
        attack: LIMIT,
        hold: LIMIT,
        decay: LIMIT,
        release: LIMIT,
        ..SAMPLE
    };
    let timing = Timing::new(f64::from(LIMIT))
        .with_tempo(0.0)
        .with_scale(20.0);
    case.ask(Call::Fresh(longest, timing));
    case.trigger(Trigger::New);
    let most = 659_706_976_665_600;
    let all = case.lead() == Some(4 * most) && case.tail() == Some(most);
    case.frames(3);
    case.set(EnvelopeParams {
        delay: 0.0,
        attack_curve: 1.0,
        ..longest
    });
    let attack = case.stands(Stage::Attack, 0.0) && case.lead() == Some(3 * most);
    case.frames(3);
    all && attack && case.lead() == Some(3 * most - 3)
}

/// NaN is over nothing, and neither is anything negative.
pub(super) fn odd_numbers(case: &mut Case) -> bool {
    let odd = EnvelopeParams {
        delay: f32::NAN,
        attack: 4.0,
        hold: f32::NEG_INFINITY,
        decay: -LIMIT.next_up(),
        sustain: f32::from_bits(0xffc0_0001),
        attack_curve: f32::INFINITY,
        start: -0.0,
        end: f32::from_bits(0x7f80_0001),
        ..SAMPLE
    };
    case.note(odd);
    let rises = case.envelope().stage() == Stage::Attack && case.lead() == Some(4);
    case.frames(5);
    let falls = case.stands(Stage::Sustain, 0.0);
    case.ask(Call::Timing(Timing::new(f64::NAN)));
    let still = case.refused(0) && case.tail() == Some(0);
    case.ask(Call::Timing(RATE_1000.with_scale(f64::NAN)));
    rises && falls && still && case.tail() == Some(0)
}

pub(super) fn tempo_and_scale(case: &mut Case) -> bool {
    let beats = EnvelopeParams {
        unit: TimeUnit::Tempo,
        decay: 1.0,
        ..NONE
    };
    case.ask(Call::Fresh(beats, Timing::new(48_000.0).with_tempo(0.5)));
    case.trigger(Trigger::New);
    let slow = case.lead() == Some(2_880_000);
    case.ask(Call::Timing(Timing::new(10.0).with_scale(0.5)));
    // 2.5 samples, halves away from zero.
    let halved = case.lead() == Some(3) && count(case.envelope(), Stage::Decay) == 3;
    case.frames(2);
    slow && halved && case.lead() == Some(1)
}

/// Half a sample is one and what is just below it none, which adding a half
/// and flooring would not tell apart.
pub(super) fn below_half(case: &mut Case) -> bool {
    let second = EnvelopeParams {
        decay: 1000.0,
        ..NONE
    };
    case.ask(Call::Fresh(second, Timing::new(0.5_f64.next_down())));
    case.trigger(Trigger::New);
    let none = case.stands(Stage::Sustain, 0.5);
    case.ask(Call::Timing(Timing::new(0.5)));
    case.trigger(Trigger::New);
    none && case.stands(Stage::Decay, 1.0) && case.lead() == Some(1)
}
