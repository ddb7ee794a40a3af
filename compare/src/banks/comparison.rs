//! The program's answers about the bank, held against the Rust's bank, against
//! the single envelope over each voice's history, and with blocks cut against
//! those of longer ones.

use std::io::Read;

use crate::banks::calls::READING;
use crate::banks::coverage::Coverage;
use crate::banks::lists::{List, Step};
use crate::banks::words::{self, SUBJECTS, word_at, words};
use crate::program::Compared;
use crate::reference::ACCEPTED;
use crate::replay::{Compares, ending};
use crate::report::{Inputs, Tally};

/// Where a case stands: the list, the call by its number from 0, and which
/// part of the answer, if there are several.
#[derive(Clone, Copy)]
struct Place<'a> {
    list: &'a str,
    call: usize,
    step: &'a Step,
    part: Part,
}

#[derive(Clone, Copy)]
enum Part {
    Whole,
    Word(&'static str, &'static str),
    Level(usize),
}

impl Place<'_> {
    fn of(self, part: Part) -> Self {
        Self { part, ..self }
    }
}

impl Inputs for Place<'_> {
    fn shown(self) -> String {
        let part = match self.part {
            Part::Whole => String::new(),
            Part::Word(subject, word) => format!(", {}", words::named(subject, word)),
            Part::Level(number) => format!(", level {number}"),
        };
        let call = self.step.call.shown();
        format!("{}, call {} {call}{part}", self.list, self.call)
    }
}

/// The subjects of the comparison, and what it reached.
pub struct Comparison {
    refusal: Tally,
    readings: [Tally; SUBJECTS.len()],
    run_on: Tally,
    readings_by_history: Tally,
    levels: Tally,
    kept: Tally,
    levels_by_history: Tally,
    levels_again: Tally,
    cut_readings: Tally,
    cut_levels: Tally,
    lists: u64,
    coverage: Coverage,
}

impl Default for Comparison {
    fn default() -> Self {
        Self {
            refusal: Tally::new("refusal"),
            readings: SUBJECTS.map(Tally::new),
            run_on: Tally::new("lead run on"),
            readings_by_history: Tally::new("readings by history"),
            levels: Tally::new("levels"),
            kept: Tally::new("output kept"),
            levels_by_history: Tally::new("levels by history"),
            levels_again: Tally::new("levels by history, from nothing"),
            cut_readings: Tally::new("readings, blocks cut"),
            cut_levels: Tally::new("levels, blocks cut"),
            lists: 0,
            coverage: Coverage::default(),
        }
    }
}

impl Comparison {
    /// The answer to a call that reads.
    fn readings(&mut self, place: Place, ours: &[u8; READING], is_cut: bool) {
        let Some(rust) = &place.step.readings else {
            return;
        };
        let (bank, history) = (rust.bank.bytes(), rust.history.bytes());
        for (at, (subject, word)) in words().enumerate() {
            let place = place.of(Part::Word(subject, word));
            let (ours, bank, history) =
                (word_at(ours, at), word_at(&bank, at), word_at(&history, at));
            if is_cut {
                self.cut_readings.check(place, ours, bank);
            } else {
                self.readings[words::place(subject)].check(place, ours, bank);
                self.readings_by_history.check(place, ours, history);
            }
        }
        if let (Some(run_on), false) = (rust.run_on, is_cut) {
            self.run_on.check(place, words::lead(ours), run_on);
        }
    }

    /// The output of a process, which stands at `first` among the list's.
    fn levels(&mut self, place: Place, ours: &[u8], list: &List, first: usize) {
        let accepted = place.step.refusal == ACCEPTED;
        for (number, ours) in ours.chunks_exact(4).enumerate() {
            let ours = f32::from_bits(u32::from_le_bytes([ours[0], ours[1], ours[2], ours[3]]));
            let place = place.of(Part::Level(number));
            let at = first + number;
            if !accepted {
                self.kept.check(place, ours, list.levels.bank[at]);
            } else if list.is_cut {
                self.cut_levels.check(place, ours, list.levels.bank[at]);
            } else {
                self.levels.check(place, ours, list.levels.bank[at]);
                self.levels_by_history
                    .check(place, ours, list.levels.histories[at]);
                self.levels_again.check(place, ours, list.levels.again[at]);
            }
        }
    }
}

impl Compared for Comparison {
    fn print(&self) -> bool {
        println!("{} lists, and each once more with blocks cut", self.lists);
        self.coverage.print()
    }

    fn tallies(self) -> Vec<Tally> {
        let mut tallies = vec![self.refusal];
        tallies.extend(self.readings);
        tallies.extend([
            self.run_on,
            self.readings_by_history,
            self.levels,
            self.kept,
            self.levels_by_history,
            self.levels_again,
            self.cut_readings,
            self.cut_levels,
        ]);
        tallies
    }
}

impl Compares for Comparison {
    type List = List;

    fn list(&mut self, list: &List, output: &mut impl Read) -> Result<(), String> {
        let mut first = 0;
        let mut bytes = Vec::new();
        for (call, step) in list.steps.iter().enumerate() {
            let place = Place {
                list: &list.name,
                call,
                step,
                part: Part::Whole,
            };
            let ended = |error| ending(&place.shown(), &error);
            if step.readings.is_some() {
                let mut reading = [0; READING];
                output.read_exact(&mut reading).map_err(ended)?;
                self.readings(place, &reading, list.is_cut);
                continue;
            }
            let mut refusal = [0; 4];
            output.read_exact(&mut refusal).map_err(ended)?;
            self.refusal
                .check(place, u32::from_le_bytes(refusal), step.refusal);
            bytes.resize(4 * step.call.levels(), 0);
            output.read_exact(&mut bytes).map_err(ended)?;
            self.levels(place, &bytes, list, first);
            first += step.call.levels();
        }
        self.lists += u64::from(!list.is_cut);
        self.coverage.merge(&list.coverage);
        Ok(())
    }
}

#[cfg(test)]
mod tests {
    use super::*;
    use crate::banks::calls::Call;
    use crate::banks::lists::Draft;
    use crate::random::Random;
    use crate::rust::envelope::{EnvelopeParams, Timing, Trigger};

    fn list() -> List {
        let mut draft = Draft::new("list 0".into());
        draft.ask(Call::Open(2, EnvelopeParams::AMP, Timing::new(1e3)), 0);
        draft.ask(Call::Trigger(1, Trigger::New), 0);
        draft.ask(Call::Read(1), 9_999);
        draft.ask(Call::Process(32), 0);
        draft.ask(Call::Process(3), 0);
        draft.close()
    }

    /// The list, and the same with its blocks cut.
    fn both() -> [List; 2] {
        let (list, cut) = (list(), list().cut(&mut Random::new(1)));
        [list, cut]
    }

    /// The subjects that differ when the byte at `at` of the answers to the
    /// list with this number does.
    fn differing(number: usize, at: usize) -> Vec<&'static str> {
        let mut comparison = Comparison::default();
        for (of, list) in both().iter().enumerate() {
            let mut bytes = list.reply_bytes();
            bytes[at] ^= u8::from(of == number);
            comparison.list(list, &mut bytes.as_slice()).unwrap();
        }
        let tallies = comparison.tallies().into_iter();
        let different = tallies.filter(|tally| !tally.is_good());
        different.map(|tally| tally.name()).collect()
    }

    #[test]
    fn each_part_is_looked_at() {
        let reading = |word: usize| 8 + 4 * word;
        let places = [
            (0, vec!["refusal"]),
            (reading(0), vec!["settings", "readings by history"]),
            (reading(15), vec!["stage", "readings by history"]),
            (reading(16), vec!["is_idle", "readings by history"]),
            (reading(17), vec!["level", "readings by history"]),
            (reading(19), vec!["tail", "readings by history"]),
            (
                reading(21),
                vec!["lead", "lead run on", "readings by history"],
            ),
            (reading(22), vec!["stage", "readings by history"]),
            (reading(26), vec!["lead", "readings by history"]),
            (reading(27), vec!["voices", "readings by history"]),
            (reading(30), vec!["stride", "readings by history"]),
            (
                reading(31) + 4,
                vec![
                    "levels",
                    "levels by history",
                    "levels by history, from nothing",
                ],
            ),
            (reading(31) + 4 + 128, vec!["refusal"]),
            (reading(31) + 8 + 128, vec!["output kept"]),
        ];
        for (at, expected) in places {
            assert_eq!(differing(0, at), expected, "byte {at}");
        }
    }

    #[test]
    fn every_byte_makes_a_difference() {
        for (number, list) in both().iter().enumerate() {
            for at in 0..list.reply_bytes().len() {
                let name = &list.name;
                assert!(!differing(number, at).is_empty(), "{name}, byte {at}");
            }
        }
    }

    #[test]
    fn the_same_is_no_difference() {
        let mut comparison = Comparison::default();
        for list in both() {
            comparison
                .list(&list, &mut list.reply_bytes().as_slice())
                .unwrap();
        }
        assert!(comparison.tallies().iter().all(Tally::is_good));
    }
}
