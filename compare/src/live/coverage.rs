//! Which codes that mean nothing were asked over C, in which calls, and which
//! number would have answered without them. What was not reached is not
//! compared, so it is a failure.

use crate::coverage::counted;
use crate::live::coded::{CODES, Coded, NAMES};

/// The numbers that are counted by themselves, and the rest.
const NUMBERS: [(&str, u32); 4] = [("2", 2), ("3", 3), ("255", 255), ("2^32 - 1", u32::MAX)];
const OTHERS: &str = "another number";

/// What each call would have been answered with.
const ELSE: [&[u32]; NAMES.len()] = [&[0, 1, 3, 4], &[0, 2, 3], &[0, 3], &[0, 2], &[0, 2, 12]];

/// One more than the largest of those.
const ANSWERS: usize = 13;

/// Counts of what was reached.
#[derive(Default)]
pub struct Coverage {
    /// By the call, the place of the code and the number in it.
    codes: [[[u64; NUMBERS.len() + 1]; CODES.len()]; NAMES.len()],
    /// By the call and its answer without them.
    answers: [[u64; ANSWERS]; NAMES.len()],
    several: u64,
}

impl Coverage {
    /// `coded`, which with other codes would have been answered with `answer`.
    pub fn add(&mut self, coded: &Coded, answer: u32) {
        let call = coded.number();
        self.answers[call][answer as usize] += 1;
        let mut unnamed = 0;
        for (place, code) in coded.codes().into_iter().enumerate() {
            if coded.is_unnamed(code) {
                let number = NUMBERS.iter().position(|(_, number)| *number == code);
                self.codes[call][place][number.unwrap_or(NUMBERS.len())] += 1;
                unnamed += 1;
            }
        }
        self.several += u64::from(unnamed > 1);
    }

    /// Prints the counts, and answers whether everything was reached.
    #[must_use]
    pub fn print(&self) -> bool {
        let all = self.all();
        let (names, counts): (Vec<_>, Vec<_>) = all.iter().cloned().unzip();
        println!("over C: {}", counted(&names, &counts));
        let missing = all.iter().filter(|(_, count)| *count == 0);
        let missing = missing.map(|(name, _)| println!("not reached: {name}"));
        missing.count() == 0
    }

    /// Each thing with its count.
    fn all(&self) -> Vec<(String, u64)> {
        let mut all = vec![("several unnamed codes".to_string(), self.several)];
        for (call, name) in NAMES.iter().enumerate() {
            for answer in ELSE[call] {
                let what = format!("{name} by 10, else {answer}");
                all.push((what, self.answers[call][*answer as usize]));
            }
            all.extend(self.numbers(call));
        }
        all
    }

    /// The numbers of a call's codes.
    fn numbers(&self, call: usize) -> Vec<(String, u64)> {
        let has_kind = matches!(NAMES[call], "trigger" | "chord");
        let codes: &[&str] = if has_kind { &["kind"] } else { &CODES };
        let names = NUMBERS.iter().map(|(name, _)| *name).chain([OTHERS]);
        // 2 is a kind of trigger.
        let first = usize::from(has_kind);
        let numbers: Vec<(usize, &str)> = names.enumerate().skip(first).collect();
        let mut all = Vec::new();
        for (place, code) in codes.iter().enumerate() {
            for (number, shown) in &numbers {
                let what = format!("{code} {shown} in {}", NAMES[call]);
                all.push((what, self.codes[call][place][*number]));
            }
        }
        all
    }
}

#[cfg(test)]
mod tests {
    use super::*;
    use crate::calls::Settings;
    use crate::rust::envelope::EnvelopeParams;

    #[test]
    fn counts_each_code_and_the_answer_without() {
        let mut coverage = Coverage::default();
        let everything = coverage.all().len();
        // Three calls with three codes of five, two with four kinds, fourteen
        // answers.
        assert_eq!(everything, 1 + 3 * 3 * 5 + 2 * 4 + 14);
        let settings = Settings {
            unit: 2,
            restart: 256,
            ..Settings::from(&EnvelopeParams::AMP)
        };
        coverage.add(&Coded::Settings(7, settings), 2);
        coverage.add(&Coded::Trigger(7, u32::MAX), 0);
        coverage.add(&Coded::Chord(vec![7, 7], 3), 12);
        let reached = coverage.all().into_iter().filter(|(_, count)| *count > 0);
        let reached: Vec<String> = reached.map(|(name, _)| name).collect();
        let expected = [
            "several unnamed codes",
            "settings by 10, else 2",
            "unit 2 in settings",
            "restart another number in settings",
            "trigger by 10, else 0",
            "kind 2^32 - 1 in trigger",
            "chord by 10, else 12",
            "kind 3 in chord",
        ];
        assert_eq!(reached, expected);
    }
}
