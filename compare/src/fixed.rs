//! Fixed lists, each about one thing that is easily got wrong. Each also says
//! whether the Rust still shows that thing, so that none can go stale.

mod blocks;
mod changes;
mod notes;
mod numbers;

use crate::calls::Call;
use crate::lists::List;
use crate::rust::envelope::{
    Envelope, EnvelopeParams, Stage, StealRestart, TimeUnit, Timing, Trigger,
};

/// A list as it grows, with what is asked of it.
struct Case(List);

type Build = fn(&mut Case) -> bool;

/// Each case: its name, and what makes it and answers whether it shows what
/// the name says.
const CASES: [(&str, Build); 34] = [
    ("document 01's sample list", notes::the_sample),
    ("next_level by next_level", notes::one_by_one),
    ("a reset in mid-attack", notes::reset),
    ("notes on a lent envelope", notes::lent),
    ("legato on a releasing voice", notes::legato_in_release),
    (
        "inverted legato on a releasing voice",
        notes::inverted_in_release,
    ),
    (
        "an attack of one sample skipped below level 1",
        notes::attack_skipped,
    ),
    ("an attack of one sample taken", notes::attack_taken),
    ("start at 1", notes::start_at_one),
    ("retrigger below the start level", notes::below_start),
    ("retrigger from the start level", notes::from_start),
    ("straight attack of 4 joined at 0.375", notes::joined),
    ("bent attack joined above its start", notes::joined_bent),
    (
        "an attack joined just below half a sample",
        notes::joined_below_half,
    ),
    ("start moved during a delay", changes::start_in_delay),
    (
        "end and sustain moved while they hold",
        changes::holding_moved,
    ),
    ("rate changed in mid-decay", changes::rate_in_decay),
    (
        "decay of 4 replanned after 3 to 3",
        changes::replanned_to_end,
    ),
    (
        "decay of 4 replanned after 3 to 5",
        changes::replanned_to_last,
    ),
    ("settings that change nothing", changes::untouched),
    ("release from a subnormal level", numbers::subnormal_release),
    ("base of negative zero", numbers::negative_zero),
    ("every combination of zero times", notes::zero_times),
    ("fresh refused", changes::fresh_refused),
    ("settings and timing refused", changes::changes_refused),
    ("times and rates at the limit", numbers::at_the_limit),
    ("numbers that are none", numbers::odd_numbers),
    ("tempo and scale", numbers::tempo_and_scale),
    ("just below half a sample", numbers::below_half),
    ("blocks of 0, 1 and 2", blocks::short_blocks),
    ("blocks of 16,384 and 16,385", blocks::long_blocks),
    ("count 16,385", blocks::two_segments),
    ("a block cut anywhere", blocks::cut),
    ("a long block cut around a segment's end", blocks::cut_long),
];

/// All cases.
///
/// # Errors
///
/// One of them doesn't show what it is about.
pub fn lists() -> Result<Vec<List>, String> {
    CASES
        .into_iter()
        .map(|(name, build)| {
            let mut case = Case(List::new(format!("case {name:?}")));
            if build(&mut case) {
                Ok(case.0)
            } else {
                Err(format!("case {name:?}: the Rust doesn't show it any more"))
            }
        })
        .collect()
}

/// The settings of document 01's sample list.
pub(crate) const SAMPLE: EnvelopeParams = EnvelopeParams {
    unit: TimeUnit::Milliseconds,
    delay: 2.0,
    attack: 4.0,
    hold: 1.0,
    decay: 2.0,
    sustain: 0.5,
    release: 2.0,
    attack_curve: 0.5,
    decay_curve: 0.5,
    release_curve: 0.5,
    start: 0.0,
    end: 0.0,
    legato_inverted: false,
    steal_restart: StealRestart::CurrentLevel,
};

/// The same with no time at all, for cases that need one or two of them.
pub(crate) const NONE: EnvelopeParams = EnvelopeParams {
    delay: 0.0,
    attack: 0.0,
    hold: 0.0,
    decay: 0.0,
    release: 0.0,
    ..SAMPLE
};

/// A rate at which a millisecond is a sample.
pub(crate) const RATE_1000: Timing = Timing::new(1000.0);

impl Case {
    fn ask(&mut self, call: Call) -> Vec<f32> {
        self.0.ask(call, u64::MAX).to_vec()
    }

    fn fresh(&mut self, settings: EnvelopeParams) {
        self.ask(Call::Fresh(settings, RATE_1000));
    }

    /// A new note on a fresh envelope.
    fn note(&mut self, settings: EnvelopeParams) {
        self.fresh(settings);
        self.trigger(Trigger::New);
    }

    fn trigger(&mut self, trigger: Trigger) {
        self.ask(Call::Trigger(trigger));
    }

    fn set(&mut self, settings: EnvelopeParams) {
        self.ask(Call::Settings(settings));
    }

    fn frames(&mut self, frames: u32) -> Vec<f32> {
        self.ask(Call::Process(frames))
    }

    fn envelope(&self) -> &Envelope {
        self.0.envelope()
    }

    /// Whether it is in `stage` with `level` to come next.
    fn stands(&self, stage: Stage, level: f32) -> bool {
        self.envelope().stage() == stage && self.bits() == level.to_bits()
    }

    fn bits(&self) -> u32 {
        self.envelope().level().to_bits()
    }

    fn rest(&self) -> u64 {
        self.envelope().inside().rest
    }

    /// The last reply's lead, tail and refusal.
    fn lead(&self) -> Option<u64> {
        self.0.steps.last().map(|step| step.reply.lead)
    }

    fn tail(&self) -> Option<u64> {
        self.0.steps.last().map(|step| step.reply.tail)
    }

    fn refused(&self, number: u32) -> bool {
        self.0.steps.last().map(|step| step.reply.refusal) == Some(number)
    }
}

#[cfg(test)]
mod tests {
    #[test]
    fn each_shows_what_it_is_about() {
        let lists = super::lists().unwrap();
        assert_eq!(lists.len(), super::CASES.len());
        for step in lists.iter().flat_map(|list| &list.steps) {
            assert_eq!(step.run_on, Some(step.reply.lead));
        }
    }
}
