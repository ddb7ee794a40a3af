//! The program's answers about the single envelope, held against the Rust's.

use std::io::Read;

use crate::calls::{FIELDS, REPLY, Reply, Settings};
use crate::coverage::Coverage;
use crate::lists::{List, Step};
use crate::program::Compared;
use crate::replay::{Compares, ending};
use crate::report::{Inputs, Tally};

/// Where a case stands: the list, the call by its number from 0, and which
/// part of the answer, if there are several.
#[derive(Clone, Copy)]
struct Place<'a> {
    list: &'a str,
    call: usize,
    step: &'a Step,
    part: Part,
}

#[derive(Clone, Copy)]
enum Part {
    Whole,
    Setting(&'static str),
    Level(usize),
}

impl Place<'_> {
    fn of(self, part: Part) -> Self {
        Self { part, ..self }
    }
}

impl Inputs for Place<'_> {
    fn shown(self) -> String {
        let part = match self.part {
            Part::Whole => String::new(),
            Part::Setting(name) => format!(", {name}"),
            Part::Level(number) => format!(", level {number}"),
        };
        let name = self.step.call.name();
        format!("{}, call {} {name}{part}", self.list, self.call)
    }
}

/// The subjects of the comparison, and what it reached.
pub struct Comparison {
    refusal: Tally,
    settings: Tally,
    stage: Tally,
    idle: Tally,
    level: Tally,
    tail: Tally,
    lead: Tally,
    run_on: Tally,
    levels: Tally,
    pub coverage: Coverage,
}

impl Default for Comparison {
    fn default() -> Self {
        Self {
            refusal: Tally::new("refusal"),
            settings: Tally::new("settings"),
            stage: Tally::new("stage"),
            idle: Tally::new("is_idle"),
            level: Tally::new("level"),
            tail: Tally::new("tail"),
            lead: Tally::new("lead"),
            run_on: Tally::new("lead run on"),
            levels: Tally::new("levels"),
            coverage: Coverage::default(),
        }
    }
}

impl Comparison {
    fn reply(&mut self, place: Place, ours: &Reply) {
        let rust = &place.step.reply;
        self.refusal.check(place, ours.refusal, rust.refusal);
        self.settings(place, &ours.settings, &rust.settings);
        self.stage.check(place, ours.stage, rust.stage);
        self.idle.check(place, ours.idle, rust.idle);
        self.level.check(place, ours.level, rust.level);
        self.tail.check(place, ours.tail, rust.tail);
        self.lead.check(place, ours.lead, rust.lead);
        if let Some(run_on) = place.step.run_on {
            self.run_on.check(place, ours.lead, run_on);
        }
    }

    fn settings(&mut self, place: Place, ours: &Settings, rust: &Settings) {
        let words = ours.words().into_iter().zip(rust.words());
        for (name, (ours, rust)) in FIELDS.into_iter().zip(words) {
            self.settings
                .check(place.of(Part::Setting(name)), ours, rust);
        }
    }

    fn levels(&mut self, place: Place, ours: &[u8], rust: &[f32]) {
        for (number, (ours, &rust)) in ours.chunks_exact(4).zip(rust).enumerate() {
            let bits = u32::from_le_bytes([ours[0], ours[1], ours[2], ours[3]]);
            let place = place.of(Part::Level(number));
            self.levels.check(place, f32::from_bits(bits), rust);
        }
    }
}

impl Compared for Comparison {
    fn print(&self) -> bool {
        self.coverage.print()
    }

    fn tallies(self) -> Vec<Tally> {
        vec![
            self.refusal,
            self.settings,
            self.stage,
            self.idle,
            self.level,
            self.tail,
            self.lead,
            self.run_on,
            self.levels,
        ]
    }
}

impl Compares for Comparison {
    type List = List;

    fn list(&mut self, list: &List, output: &mut impl Read) -> Result<(), String> {
        let mut levels = list.levels.as_slice();
        let mut bytes = Vec::new();
        for (call, step) in list.steps.iter().enumerate() {
            let place = Place {
                list: &list.name,
                call,
                step,
                part: Part::Whole,
            };
            let ended = |error| ending(&place.shown(), &error);
            let mut reply = [0; REPLY];
            output.read_exact(&mut reply).map_err(ended)?;
            self.reply(place, &Reply::from_bytes(&reply));
            let (rust, later) = levels.split_at(step.call.levels());
            bytes.resize(4 * rust.len(), 0);
            output.read_exact(&mut bytes).map_err(ended)?;
            self.levels(place, &bytes, rust);
            levels = later;
        }
        self.coverage.add(list);
        Ok(())
    }
}

#[cfg(test)]
mod tests {
    use super::*;
    use crate::calls::Call;
    use crate::report;
    use crate::rust::envelope::{EnvelopeParams, Timing, Trigger};

    fn list() -> List {
        let mut list = List::new("list 0".into());
        list.ask(Call::Fresh(EnvelopeParams::AMP, Timing::new(1e3)), 9_999);
        list.ask(Call::Trigger(Trigger::New), 9_999);
        list.ask(Call::Process(2), 9_999);
        list
    }

    /// The subjects that differ when the byte at `at` does.
    fn differing(at: usize) -> Vec<&'static str> {
        let list = list();
        let mut bytes = list.reply_bytes();
        bytes[at] ^= 1;
        let mut comparison = Comparison::default();
        comparison.list(&list, &mut bytes.as_slice()).unwrap();
        let tallies = comparison.tallies().into_iter();
        let different = tallies.filter(|tally| !tally.is_good());
        different.map(|tally| tally.name()).collect()
    }

    #[test]
    fn each_byte_is_looked_at() {
        let places = [
            (0, vec!["refusal"]),
            (4, vec!["settings"]),
            (59, vec!["settings"]),
            (60, vec!["stage"]),
            (64, vec!["is_idle"]),
            (68, vec!["level"]),
            (79, vec!["tail"]),
            (87, vec!["lead", "lead run on"]),
            (3 * REPLY, vec!["levels"]),
            (3 * REPLY + 7, vec!["levels"]),
        ];
        for (at, expected) in places {
            assert_eq!(differing(at), expected, "byte {at}");
        }
    }

    #[test]
    fn every_byte_makes_a_difference() {
        for at in 0..list().reply_bytes().len() {
            assert!(!differing(at).is_empty(), "byte {at}");
        }
    }

    #[test]
    fn too_little_is_said_by_its_place() {
        let list = list();
        let bytes = list.reply_bytes();
        let mut comparison = Comparison::default();
        let message = comparison.list(&list, &mut &bytes[..bytes.len() - 1]);
        assert_eq!(
            message,
            Err("replay ended early, in its answer to list 0, call 2 process".into())
        );
    }

    #[test]
    fn the_same_is_no_difference() {
        let list = list();
        let mut comparison = Comparison::default();
        comparison
            .list(&list, &mut list.reply_bytes().as_slice())
            .unwrap();
        assert!(comparison.tallies().iter().all(report::Tally::is_good));
    }
}
