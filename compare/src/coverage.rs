//! What a run of lists reached: how often each call was made and refused,
//! accepted calls by the stage that they met, and the stages that took no
//! time at a note. What was not reached is not compared, so it is a failure.

use crate::calls::{Call, NAMES, STAGES, Settings, stage_number};
use crate::lists::{List, Step};
use crate::rust::envelope::{Stage, Trigger};

/// The kinds of calls that every stage has to meet.
const KINDS: [&str; 12] = [
    "settings",
    "timing",
    "new",
    "retrigger from the level",
    "retrigger from the start",
    "legato",
    "legato inverted",
    "release",
    "reset",
    "process",
    "next_level",
    "note",
];

/// The refusals' numbers, 0 for none.
const REFUSALS: [u32; 3] = [0, 3, 4];

/// The times among the settings' numbers: delay, attack, hold, decay, release.
const TIMES: [usize; 5] = [0, 1, 2, 3, 5];

/// Counts of what was reached.
#[derive(Default)]
pub struct Coverage {
    lists: u64,
    levels: u64,
    calls: [u64; NAMES.len()],
    refusals: [u64; REFUSALS.len()],
    met: [[u64; KINDS.len()]; STAGES.len()],
    /// By which of the five times was 0 or below at a new note, one bit each.
    zeros: [u64; 1 << TIMES.len()],
}

impl Coverage {
    pub fn add(&mut self, list: &List) {
        self.lists += 1;
        self.levels += list.levels.len() as u64;
        let mut before: Option<&Step> = None;
        for step in &list.steps {
            self.calls[step.call.number()] += 1;
            let refusal = REFUSALS.iter().position(|of| *of == step.reply.refusal);
            if let Some(refusal) = refusal {
                self.refusals[refusal] += 1;
            }
            if let (Some(before), 0) = (before, step.reply.refusal) {
                self.accepted(&step.call, before);
            }
            before = Some(step);
        }
    }

    /// An accepted call on the envelope as the step before it left it.
    fn accepted(&mut self, call: &Call, before: &Step) {
        let settings = &before.reply.settings;
        if let Some(kind) = kind(call, settings) {
            self.met[before.reply.stage as usize][kind] += 1;
        }
        if let Call::Trigger(Trigger::New) = call {
            let zeros = TIMES.map(|time| settings.numbers[time] <= 0.0);
            let bits = zeros
                .iter()
                .fold(0, |bits, &zero| 2 * bits + usize::from(zero));
            self.zeros[bits] += 1;
        }
    }

    /// Prints the counts, and answers whether everything was reached.
    #[must_use]
    pub fn print(&self) -> bool {
        let calls = counted(&NAMES, &self.calls);
        println!(
            "{} lists, {} levels; calls: {calls}",
            self.lists, self.levels
        );
        let refusals = REFUSALS.map(|number| match number {
            0 => "accepted".to_string(),
            _ => format!("refused with {number}"),
        });
        println!("{}", counted(&refusals, &self.refusals));
        for (stage, met) in STAGES.iter().zip(&self.met) {
            println!("in {stage:?}: {}", counted(&KINDS, met));
        }
        let combinations = self.zeros.iter().filter(|count| **count > 0).count();
        println!(
            "combinations of zero times at a new note: {combinations} of {}",
            self.zeros.len()
        );
        let missing = self.missing();
        for line in &missing {
            println!("{line}");
        }
        missing.is_empty()
    }

    /// One line for each thing that was not reached.
    fn missing(&self) -> Vec<String> {
        let mut lines = Vec::new();
        for stage in STAGES {
            for kind in self.unmet(stage) {
                lines.push(format!("not reached: {kind} in {stage:?}"));
            }
        }
        for (number, count) in REFUSALS.iter().zip(self.refusals) {
            if count == 0 {
                lines.push(format!("not reached: a reply of {number}"));
            }
        }
        if self.zeros.contains(&0) {
            lines.push("not reached: a combination of zero times".into());
        }
        lines
    }

    fn unmet(&self, stage: Stage) -> impl Iterator<Item = &'static str> {
        let met = self.met[stage_number(stage) as usize];
        KINDS
            .into_iter()
            .zip(met)
            .filter(|(_, count)| *count == 0)
            .map(|(kind, _)| kind)
    }
}

/// The kind of `call` on an envelope of `settings`, as a place in [`KINDS`].
fn kind(call: &Call, settings: &Settings) -> Option<usize> {
    let name = match call {
        Call::Fresh(..) => return None,
        Call::Trigger(Trigger::New) => "new",
        Call::Trigger(Trigger::Retrigger) if settings.restart == 0 => "retrigger from the level",
        Call::Trigger(Trigger::Retrigger) => "retrigger from the start",
        Call::Trigger(Trigger::Legato) if settings.legato_inverted == 0 => "legato",
        Call::Trigger(Trigger::Legato) => "legato inverted",
        _ => call.name(),
    };
    KINDS.iter().position(|kind| *kind == name)
}

/// The names, each with its count.
#[must_use]
pub fn counted(names: &[impl AsRef<str>], counts: &[u64]) -> String {
    let parts: Vec<String> = names
        .iter()
        .zip(counts)
        .map(|(name, count)| format!("{} {count}", name.as_ref()))
        .collect();
    parts.join(", ")
}

#[cfg(test)]
mod tests {
    use super::*;
    use crate::rust::envelope::{EnvelopeParams, Timing};

    #[test]
    fn counts_by_the_stage_before_the_call() {
        let mut list = List::new("one".into());
        list.ask(Call::Fresh(EnvelopeParams::AMP, Timing::new(1e3)), 0);
        list.ask(Call::Trigger(Trigger::New), 0);
        list.ask(Call::Timing(Timing::new(f64::INFINITY)), 0);
        list.ask(Call::Trigger(Trigger::Retrigger), 0);
        let mut coverage = Coverage::default();
        coverage.add(&list);
        assert_eq!(coverage.refusals, [3, 0, 1]);
        assert_eq!(coverage.met[0][2], 1, "new in Idle");
        assert_eq!(coverage.met[2][3], 1, "retrigger in Attack");
        assert_eq!(coverage.met.as_flattened().iter().sum::<u64>(), 2);
        assert_eq!(coverage.zeros[0b10100], 1, "no delay and no hold");
        // 82 pairs of 84, refusal 3, and the combinations of zero times.
        assert_eq!(coverage.missing().len(), 84);
    }
}
