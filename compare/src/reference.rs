//! The derived Rust's envelope, with what document 01 adds to it: the refusals,
//! tail and lead. Lead is summed up from the plan, and can be held against a
//! copy of the envelope that is run on.

use crate::calls::{Call, Reply, Settings, stage_number};
use crate::rust::envelope::{Envelope, EnvelopeParams, Stage, Timing};

/// The largest time and the largest sample rate.
pub const LIMIT: f32 = 1_048_576.0;

/// Frames that a copy is run on at most.
pub const RUN_ON: u64 = 300_000;

/// In a refusal's place.
pub const ACCEPTED: u32 = 0;
/// The refusal of a time over the limit.
pub const TIME: u32 = 3;
/// The refusal of a sample rate over the limit.
pub const RATE: u32 = 4;

/// The envelope that a refused fresh call leaves.
#[must_use]
pub fn refused() -> Envelope {
    Envelope::new(EnvelopeParams::AMP, Timing::new(0.0))
}

/// `call` on `envelope`: the reply, after which `levels` has the call's
/// levels at its end.
pub fn call(envelope: &mut Envelope, call: &Call, levels: &mut Vec<f32>) -> Reply {
    let refusal = apply(envelope, call, levels);
    reply_of(refusal, envelope)
}

/// The reply of `envelope` beside a refusal's number.
#[must_use]
pub fn reply_of(refusal: u32, envelope: &Envelope) -> Reply {
    Reply {
        refusal,
        settings: Settings::from(envelope.params()),
        stage: stage_number(envelope.stage()),
        idle: envelope.is_idle().into(),
        level: envelope.level(),
        tail: tail(envelope),
        lead: lead(envelope),
    }
}

/// Answers the refusal's number.
fn apply(envelope: &mut Envelope, call: &Call, levels: &mut Vec<f32>) -> u32 {
    match *call {
        Call::Fresh(settings, timing) => {
            let refusal = fresh_refusal(&settings, &timing);
            *envelope = match refusal {
                ACCEPTED => Envelope::new(settings, timing),
                _ => refused(),
            };
            return refusal;
        }
        Call::Settings(settings) => match time_refusal(&settings) {
            ACCEPTED => envelope.set_params(settings),
            time => return time,
        },
        Call::Timing(timing) => match rate_refusal(&timing) {
            ACCEPTED => envelope.set_timing(timing),
            rate => return rate,
        },
        Call::Trigger(trigger) => envelope.trigger(trigger),
        Call::Release => envelope.release(),
        Call::Reset => envelope.reset(),
        Call::Process(frames) => {
            let before = levels.len();
            levels.resize(before + frames as usize, f32::NAN);
            envelope.process(&mut levels[before..]);
        }
        Call::NextLevel => levels.push(envelope.next_level()),
        Call::Note(note) => {
            let [.., settings, timing, _, _] =
                note.calls().map(|call| apply(envelope, &call, levels));
            return if timing == ACCEPTED { settings } else { timing };
        }
    }
    ACCEPTED
}

/// The refusal of a fresh envelope, or of a bank for its settings or timing.
#[must_use]
pub fn fresh_refusal(settings: &EnvelopeParams, timing: &Timing) -> u32 {
    match rate_refusal(timing) {
        ACCEPTED => time_refusal(settings),
        rate => rate,
    }
}

/// The refusal of a timing.
#[must_use]
pub fn rate_refusal(timing: &Timing) -> u32 {
    if timing.sample_rate > f64::from(LIMIT) {
        RATE
    } else {
        ACCEPTED
    }
}

/// The refusal of settings.
#[must_use]
pub fn time_refusal(p: &EnvelopeParams) -> u32 {
    let times = [p.delay, p.attack, p.hold, p.decay, p.release];
    if times.into_iter().any(|time| time > LIMIT) {
        TIME
    } else {
        ACCEPTED
    }
}

/// The length of each timed stage by the present settings and timing; an
/// untimed one has none.
#[must_use]
pub fn count(envelope: &Envelope, stage: Stage) -> u64 {
    let p = envelope.params();
    let time = match stage {
        Stage::Idle | Stage::Sustain => return 0,
        Stage::Delay => p.delay,
        Stage::Attack => p.attack,
        Stage::Hold => p.hold,
        Stage::Decay => p.decay,
        Stage::Release => p.release,
    };
    envelope.timing().samples(time, p.unit)
}

/// 0 when idle, else the release's count.
#[must_use]
pub fn tail(envelope: &Envelope) -> u64 {
    if envelope.is_idle() {
        0
    } else {
        count(envelope, Stage::Release)
    }
}

/// Frames until Sustain, if only frames follow.
#[must_use]
pub fn lead(envelope: &Envelope) -> u64 {
    let inside = envelope.inside();
    let count = |stage| count(envelope, stage);
    match envelope.stage() {
        Stage::Idle | Stage::Sustain | Stage::Release => 0,
        Stage::Delay => {
            let attack = count(Stage::Attack).saturating_sub(inside.place);
            inside.rest + attack + count(Stage::Hold) + count(Stage::Decay)
        }
        Stage::Attack => inside.rest + count(Stage::Hold) + count(Stage::Decay),
        Stage::Hold => inside.rest + count(Stage::Decay),
        Stage::Decay => inside.rest,
    }
}

/// Frames until Sustain as a copy of `envelope` takes them: `lead` if it is
/// right, or if the copy is not there after [`RUN_ON`] frames.
#[must_use]
pub fn lead_run_on(envelope: &Envelope, lead: u64) -> u64 {
    if matches!(
        envelope.stage(),
        Stage::Idle | Stage::Sustain | Stage::Release
    ) {
        return 0;
    }
    let before = lead.saturating_sub(1);
    let mut copy = envelope.clone();
    copy.process(&mut vec![f32::NAN; before.min(RUN_ON) as usize]);
    let early = copy.stage() == Stage::Sustain;
    if !early && before > RUN_ON {
        return lead;
    }
    copy.next_level();
    if !early && copy.stage() == Stage::Sustain {
        return lead;
    }
    frame_by_frame(envelope.clone())
}

/// The slow count, for a lead that turned out wrong.
fn frame_by_frame(mut envelope: Envelope) -> u64 {
    let mut frames = 0;
    while envelope.stage() != Stage::Sustain && frames <= RUN_ON {
        envelope.next_level();
        frames += 1;
    }
    frames
}

#[cfg(test)]
mod tests {
    use super::*;
    use crate::rust::envelope::Trigger;

    /// In a delay of 2, with an attack of 4, a hold of 1 and a decay of 2.
    fn delayed() -> Envelope {
        let settings = EnvelopeParams {
            delay: 2.0,
            attack: 4.0,
            hold: 1.0,
            decay: 2.0,
            ..EnvelopeParams::AMP
        };
        let mut envelope = Envelope::new(settings, Timing::new(1000.0));
        envelope.trigger(Trigger::New);
        envelope
    }

    #[test]
    fn running_on_finds_a_wrong_lead() {
        let envelope = delayed();
        assert_eq!(lead(&envelope), 9);
        for wrong in [0, 1, 8, 9, 10, 11, 1000] {
            assert_eq!(lead_run_on(&envelope, wrong), 9, "lead {wrong}");
        }
    }

    #[test]
    fn running_on_stops_at_its_limit() {
        let mut envelope = delayed();
        envelope.set_timing(Timing::new(1e6));
        envelope.reset();
        envelope.set_params(EnvelopeParams {
            hold: 1000.0,
            ..*envelope.params()
        });
        envelope.trigger(Trigger::New);
        let lead = lead(&envelope);
        assert!(lead > RUN_ON);
        assert_eq!(lead_run_on(&envelope, lead), lead);
        assert_eq!(lead_run_on(&envelope, 5), RUN_ON + 1);
    }

    #[test]
    fn the_rate_is_tested_first() {
        let long = EnvelopeParams {
            hold: LIMIT.next_up(),
            ..EnvelopeParams::AMP
        };
        let fast = Timing::new(f64::from(LIMIT).next_up());
        let mut envelope = delayed();
        let mut answer = |of| call(&mut envelope, &of, &mut Vec::new()).refusal;
        assert_eq!(answer(Call::Fresh(long, fast)), RATE);
        assert_eq!(answer(Call::Fresh(long, Timing::new(1000.0))), TIME);
        assert_eq!(answer(Call::Timing(Timing::new(f64::NAN))), ACCEPTED);
    }
}
