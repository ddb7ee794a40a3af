//! Lists of calls run through the C functions, on a bank and on arrays apart, and
//! through the Rust crate, call by call beside the Rust's bank.

use crate::banks::coverage::Coverage;
use crate::banks::lists::List;
use crate::live::checked::Checked;
use crate::live::expected::Expecting;
use crate::live::functions::{VERSION, agrees};
use crate::live::hosts::Host;
use crate::live::outputs::Output;
use crate::live::places::{Asked, Part, Place};
use crate::live::through_apart::ThroughApart;
use crate::live::through_c::ThroughC;
use crate::live::through_rust::ThroughRust;
use crate::live::unnamed::Unnamed;
use crate::players::stops;
use crate::program::Compared;
use crate::report::Tally;

/// The hosts, and what was reached.
pub struct Comparison {
    c: Checked<ThroughC>,
    apart: Checked<ThroughApart>,
    rust: Checked<ThroughRust>,
    unnamed: Unnamed,
    version: Tally,
    lists: u64,
    coverage: Coverage,
}

impl Comparison {
    /// Nothing compared yet. What the hosts choose follows from `seed`.
    ///
    /// # Errors
    ///
    /// Header and library don't agree, or there is no memory.
    pub fn new(seed: u64) -> Result<Self, String> {
        if !agrees() {
            return Err("include/worfelli.h and libworfelli.a are of different versions".into());
        }
        stops::tell();
        Ok(Self {
            c: Checked::new(ThroughC::new(seed)?, Output::new(seed)?),
            apart: Checked::new(ThroughApart::new(seed)?, Output::new(seed)?),
            rust: Checked::new(ThroughRust::new()?, Output::new(seed)?),
            unnamed: Unnamed::new(seed),
            version: Tally::of(ThroughC::NAME, "version"),
            lists: 0,
            coverage: Coverage::default(),
        })
    }

    /// One list, through each.
    pub fn list(&mut self, list: &List) {
        stops::at(&list.name, || self.steps(list));
        self.lists += u64::from(!list.is_cut);
        self.coverage.merge(&list.coverage);
    }

    fn steps(&mut self, list: &List) {
        let mut expecting = Expecting::default();
        let mut levels = list.levels.bank.as_slice();
        self.c.host.begin();
        self.apart.host.begin();
        self.rust.host.begin();
        for (number, step) in list.steps.iter().enumerate() {
            let place = Place {
                list: &list.name,
                number,
                call: Asked::Call(&step.call),
                part: Part::Whole,
            };
            let (written, later) = levels.split_at(step.call.levels());
            levels = later;
            let (c, apart) = (&mut self.c.host, &mut self.apart.host);
            self.unnamed.before(c, apart, place, step);
            let expected = expecting.next(step, written);
            self.c.step(place, expected);
            self.apart.step(place, expected);
            self.rust.step(place, expected);
            let version = self.c.host.bank().version();
            self.version.check(place, version, VERSION);
        }
    }
}

impl Compared for Comparison {
    fn print(&self) -> bool {
        println!("{} lists, and each once more with blocks cut", self.lists);
        let ThroughC {
            copies,
            over_any_bytes,
            live_chords,
            ..
        } = self.c.host;
        println!(
            "over C: {copies} copies of a bank, {over_any_bytes} lists opened over any bytes,"
        );
        println!("  {live_chords} chords accepted by worfelli_live_chord");
        let (calls, codes) = (self.coverage.print(), self.unnamed.coverage.print());
        calls && codes && copies > 0 && over_any_bytes > 0 && live_chords > 0
    }

    fn tallies(self) -> Vec<Tally> {
        let mut tallies = self.c.tallies();
        tallies.extend(self.apart.tallies());
        tallies.extend(self.unnamed.tallies());
        tallies.push(self.version);
        tallies.extend(self.rust.tallies());
        tallies
    }
}
