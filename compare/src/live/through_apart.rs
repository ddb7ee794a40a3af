//! A bank that is called through the functions that take its four arrays one by
//! one. Each array lies at an unmapped page of its own, as the list of a chord
//! does.

use crate::banks::calls::{Call, Reading};
use crate::live::coded::Coded;
use crate::live::functions::{ARRAYS, Arrays};
use crate::live::hosts::{Codes, Host};
use crate::live::through_c::{self, Entries, put_any_bytes};
use crate::players::memory::{Guarded, Side};
use crate::random::Random;

/// The arrays, in the order of a bank, and the list of a chord.
pub struct ThroughApart {
    memories: [Guarded; 4],
    entries: Entries,
    random: Random,
}

impl ThroughApart {
    /// Arrays of zeros, to be opened.
    ///
    /// # Errors
    ///
    /// There is no memory for them. The message is one line.
    pub fn new(seed: u64) -> Result<Self, String> {
        let [bends, counts, floats, codes] = ARRAYS.map(Guarded::new);
        Ok(Self {
            memories: [bends?, counts?, floats?, codes?],
            entries: Entries::new()?,
            random: Random::named(seed, "arrays apart"),
        })
    }

    /// The bytes of the arrays, on the side on which the list of a chord is.
    fn parts(&mut self) -> ([&mut [u8]; 4], &mut Entries) {
        let [bends, counts, floats, codes] = &mut self.memories;
        let side = self.entries.side;
        let parts = [
            bends.part(side, ARRAYS[0]).0,
            counts.part(side, ARRAYS[1]).0,
            floats.part(side, ARRAYS[2]).0,
            codes.part(side, ARRAYS[3]).0,
        ];
        (parts, &mut self.entries)
    }
}

impl Host for ThroughApart {
    const NAME: &'static str = "C, arrays apart";

    /// A reading copies the arrays.
    const READS_ALL: bool = false;

    type State = Vec<u8>;

    /// Half of the lists are opened over what the last one left, half over any
    /// bytes; on either side.
    fn begin(&mut self) {
        let start = self.random.coin();
        self.entries.side = if start { Side::Start } else { Side::End };
        if self.random.coin() {
            for memory in &mut self.memories {
                put_any_bytes(&mut self.random, memory);
            }
        }
    }

    fn call(&mut self, call: &Call, out: &mut [f32]) -> u32 {
        let (parts, entries) = self.parts();
        through_c::call(&mut Arrays::of(parts), entries, call, out)
    }

    fn reading(&mut self, voice: u64) -> Reading {
        through_c::reading(&Arrays::of(self.parts().0), voice as usize)
    }

    fn state(&mut self) -> Vec<u8> {
        self.parts().0.concat()
    }
}

impl Codes for ThroughApart {
    fn coded(&mut self, coded: &Coded) -> u32 {
        let (parts, entries) = self.parts();
        through_c::coded(&mut Arrays::of(parts), entries, coded)
    }
}
