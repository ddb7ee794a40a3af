//! Codes that mean nothing, over C: they are refused by 10 before any other
//! number, and leave everything but the bank that is opened, which then has no
//! voices.

use crate::banks::calls::{Call, Reading};
use crate::banks::lists::Step;
use crate::banks::refusals::{VOICE, stride};
use crate::live::coded::{Coded, UNNAMED};
use crate::live::coverage::Coverage;
use crate::live::hosts::{Codes, Host};
use crate::live::places::{Asked, Place};
use crate::live::through_apart::ThroughApart;
use crate::live::through_c::ThroughC;
use crate::random::Random;
use crate::reference::ACCEPTED;
use crate::report::Tally;

/// The subjects of the comparison, and what it reached.
pub struct Unnamed {
    random: Random,
    c: Subjects,
    apart: Subjects,
    pub coverage: Coverage,
}

/// The subjects of one host.
struct Subjects {
    answer: Tally,
    kept: Tally,
    none: Tally,
}

impl Unnamed {
    #[must_use]
    pub fn new(seed: u64) -> Self {
        Self {
            random: Random::named(seed, "codes"),
            c: Subjects::of(ThroughC::NAME),
            apart: Subjects::of(ThroughApart::NAME),
            coverage: Coverage::default(),
        }
    }

    #[must_use]
    pub fn tallies(self) -> Vec<Tally> {
        let of = |subjects: Subjects| [subjects.answer, subjects.kept, subjects.none];
        [self.c, self.apart].into_iter().flat_map(of).collect()
    }

    /// Before the call of `step`, the same with codes that mean nothing, if it
    /// carries codes.
    pub fn before(
        &mut self,
        c: &mut ThroughC,
        apart: &mut ThroughApart,
        place: Place,
        step: &Step,
    ) {
        let Some(named) = Coded::of(&step.call) else {
            return;
        };
        let coded = named.with_unnamed(&mut self.random);
        let place = Place {
            call: Asked::Coded(&coded),
            ..place
        };
        self.coverage.add(&coded, step.refusal);
        self.c.check(c, place, &coded);
        self.apart.check(apart, place, &coded);
    }
}

impl Subjects {
    fn of(side: &'static str) -> Self {
        let tally = |name| Tally::of(side, name);
        Self {
            answer: tally("unnamed code"),
            kept: tally("bank kept by an unnamed code"),
            none: tally("no voices after an unnamed code"),
        }
    }

    fn check(&mut self, host: &mut impl Codes, place: Place, coded: &Coded) {
        let state = host.state();
        let answer = host.coded(coded);
        self.answer.check(place, answer, UNNAMED);
        if let Coded::Open(..) = coded {
            self.none.check(place, has_no_voices(host), true);
        } else {
            self.kept.check(place, host.state() == state, true);
        }
    }
}

/// Whether the bank is one of no voices: by its readings, and by a frame of +0.
fn has_no_voices(host: &mut impl Host) -> bool {
    let none = Reading::refused(VOICE, 0, stride(0)).bytes();
    let mut frame = [2.0; 16];
    let answer = host.call(&Call::Process(16), &mut frame);
    let is_silent = frame.iter().all(|level| level.to_bits() == 0);
    answer == ACCEPTED && is_silent && host.reading(0).bytes() == none
}
