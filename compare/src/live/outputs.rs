//! The memory that a process writes to: at an unmapped page, with known levels
//! in it and known bytes beside it.

use crate::banks::calls::{LONGEST, before};
use crate::players::memory::{Guarded, Side, floats};
use crate::random::Random;

/// Bytes beside an output that are looked at, and what stands there.
const BESIDE: usize = 64;
const BESIDE_BYTE: u8 = 0xa5;

/// The memory, and the part of it that was lent last.
pub struct Output {
    memory: Guarded,
    random: Random,
    side: Side,
    levels: usize,
    /// What every output holds before.
    before: Vec<f32>,
}

impl Output {
    /// Memory for the longest output.
    ///
    /// # Errors
    ///
    /// There is none. The message is one line.
    pub fn new(seed: u64) -> Result<Self, String> {
        let longest = LONGEST as usize;
        Ok(Self {
            memory: Guarded::new(4 * longest + BESIDE)?,
            random: Random::named(seed, "outputs"),
            side: Side::End,
            levels: 0,
            before: (0..longest).map(before).collect(),
        })
    }

    /// So many levels, as they are before.
    pub fn lend(&mut self, levels: usize) -> &mut [f32] {
        let start = self.random.coin();
        self.side = if start { Side::Start } else { Side::End };
        self.levels = levels;
        let (out, beside) = self.memory.part(self.side, 4 * levels);
        next_to(self.side, beside).fill(BESIDE_BYTE);
        let out = floats(out);
        out.copy_from_slice(&self.before[..levels]);
        out
    }

    /// The levels that were lent last.
    pub fn levels(&mut self) -> &[f32] {
        floats(self.memory.part(self.side, 4 * self.levels).0)
    }

    /// Whether the bytes beside them are as they were.
    pub fn beside_kept(&mut self) -> bool {
        let (_, beside) = self.memory.part(self.side, 4 * self.levels);
        let beside = next_to(self.side, beside);
        beside.iter().all(|byte| *byte == BESIDE_BYTE)
    }
}

/// The bytes of `beside` that are next to a part on `side`.
fn next_to(side: Side, beside: &mut [u8]) -> &mut [u8] {
    match side {
        Side::Start => &mut beside[..BESIDE],
        Side::End => {
            let first = beside.len() - BESIDE;
            &mut beside[first..]
        }
    }
}

#[cfg(test)]
mod tests {
    use super::*;

    #[test]
    fn a_byte_beside_is_seen() {
        let mut output = Output::new(1).unwrap();
        for levels in [0, 1, 33, LONGEST as usize] {
            for _ in 0..4 {
                assert_eq!(output.lend(levels).len(), levels);
                assert!(output.beside_kept());
                let filled: Vec<f32> = (0..levels).map(before).collect();
                assert_eq!(output.levels(), filled);
                let (_, beside) = output.memory.part(output.side, 4 * levels);
                next_to(output.side, beside)[7] = 0;
                assert!(!output.beside_kept());
            }
        }
    }
}
