//! One host's answers, held against the Rust's: the number, every level, what
//! a refused call has to leave, and after each call the readings of every
//! voice.

use crate::banks::calls::{Call, READING};
use crate::banks::lists::Readings;
use crate::banks::words::{self, SUBJECTS, word_at, words};
use crate::live::expected::Expected;
use crate::live::hosts::Host;
use crate::live::outputs::Output;
use crate::live::places::{Part, Place};
use crate::reference::ACCEPTED;
use crate::report::Tally;

/// A host, and the subjects of its comparison.
pub struct Checked<H> {
    pub host: H,
    output: Output,
    /// How often voices were read, for a host that is read in turn.
    turn: usize,
    refusal: Tally,
    readings: [Tally; SUBJECTS.len()],
    /// The words of each of those.
    words: [usize; SUBJECTS.len()],
    run_on: Tally,
    levels: Tally,
    kept: Tally,
    beside: Tally,
    state: Tally,
}

impl<H: Host> Checked<H> {
    #[must_use]
    pub fn new(host: H, output: Output) -> Self {
        let tally = |name| Tally::of(H::NAME, name);
        Self {
            host,
            output,
            turn: 0,
            refusal: tally("refusal"),
            readings: SUBJECTS.map(tally),
            words: words::counts(),
            run_on: tally("lead run on"),
            levels: tally("levels"),
            kept: tally("output kept"),
            beside: tally("bytes beside the output"),
            state: tally("bank kept"),
        }
    }

    #[must_use]
    pub fn tallies(self) -> Vec<Tally> {
        let mut tallies = vec![self.refusal];
        tallies.extend(self.readings);
        tallies.extend([self.run_on, self.levels, self.kept, self.beside, self.state]);
        tallies
    }

    /// One call.
    pub fn step(&mut self, place: Place, expected: Expected) {
        let step = expected.step;
        if let (Call::Read(voice), Some(readings)) = (&step.call, &step.readings) {
            self.kept_by(place, |checked| checked.read(place, *voice, readings));
            return;
        }
        let is_opening = matches!(step.call, Call::Open(..));
        if step.refusal == ACCEPTED || is_opening {
            self.call(place, expected);
        } else {
            self.kept_by(place, |checked| checked.call(place, expected));
        }
        self.kept_by(place, |checked| checked.voices(place, expected.readings));
    }

    /// What is done has to leave all that the bank holds.
    fn kept_by(&mut self, place: Place, done: impl FnOnce(&mut Self)) {
        let before = self.host.state();
        done(self);
        let is_kept = self.host.state() == before;
        self.state.check(place, is_kept, true);
    }

    /// A call that isn't a reading.
    fn call(&mut self, place: Place, expected: Expected) {
        let Expected { step, levels, .. } = expected;
        let out = self.output.lend(levels.len());
        let ours = self.host.call(&step.call, out);
        self.refusal.check(place, ours, step.refusal);
        if matches!(step.call, Call::Process(_)) {
            let tally = match step.refusal {
                ACCEPTED => &mut self.levels,
                _ => &mut self.kept,
            };
            compare_levels(tally, place, self.output.levels(), levels);
            self.beside.check(place, self.output.beside_kept(), true);
        }
    }

    /// A reading that the list asks for.
    fn read(&mut self, place: Place, voice: u64, rust: &Readings) {
        let ours = self.host.reading(voice).bytes();
        self.compare(place, voice, &ours, &rust.bank.bytes());
        if let Some(run_on) = rust.run_on {
            self.run_on.check(place, words::lead(&ours), run_on);
        }
    }

    /// The readings of the voices from 0 on, or of one of them.
    fn voices(&mut self, place: Place, rust: &[[u8; READING]]) {
        self.turn += 1;
        let in_turn = self.turn as u64 % rust.len().max(1) as u64;
        for (voice, rust) in (0..).zip(rust) {
            if H::READS_ALL || voice == in_turn {
                let ours = self.host.reading(voice).bytes();
                self.compare(place, voice, &ours, rust);
            }
        }
    }

    fn compare(&mut self, place: Place, voice: u64, ours: &[u8; READING], rust: &[u8; READING]) {
        if ours == rust {
            let counts = self.readings.iter_mut().zip(self.words);
            counts.for_each(|(tally, words)| tally.same(words));
            return;
        }
        for (at, (subject, word)) in words().enumerate() {
            let place = place.of(Part::Word(voice, subject, word));
            let tally = &mut self.readings[words::place(subject)];
            tally.check(place, word_at(ours, at), word_at(rust, at));
        }
    }
}

fn compare_levels(tally: &mut Tally, place: Place, ours: &[f32], rust: &[f32]) {
    for (number, (ours, rust)) in ours.iter().zip(rust).enumerate() {
        tally.check(place.of(Part::Level(number)), *ours, *rust);
    }
}
