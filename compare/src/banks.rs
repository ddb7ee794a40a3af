//! The comparison of the bank.
//!
//! - [`calls`]: the calls on a bank and their answers, with the bytes of both;
//!   [`refusals`]: which calls are refused, read from the calls alone.
//! - [`reference`](mod@reference): the Rust's bank, with what document 01 adds
//!   to it; [`histories`]: each voice's history, and the single envelope run
//!   over it.
//! - [`lists`]: lists of calls with both answers, and with their blocks cut;
//!   [`fixed`] and [`random`] make them.
//! - [`comparison`] and [`coverage`]: the program's answers held against both,
//!   and what the lists reached; [`words`]: what each word of a reading is.

pub mod calls;
pub mod comparison;
pub mod coverage;
pub mod fixed;
pub mod histories;
pub mod lists;
pub mod random;
pub mod reference;
pub mod refusals;
pub mod words;

use crate::arguments::Arguments;
use lists::{List, with_cuts};

/// The fixed lists and so many random ones, each once more with its blocks cut.
///
/// # Errors
///
/// A fixed list doesn't show what it is about.
pub fn all(Arguments { seed, cases }: Arguments) -> Result<impl Iterator<Item = List>, String> {
    let lists = random::lists(seed).after(fixed::lists()?, cases);
    Ok(with_cuts(lists, seed))
}
