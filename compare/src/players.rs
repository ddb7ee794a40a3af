//! The comparison of the player of event lists.
//!
//! - [`records`]: the nine kinds of events, with the bytes of their records;
//!   [`checks`]: which record of a list is refused, and by which number.
//! - [`reference`](mod@reference): a player over the Rust's bank.
//! - [`drafts`], [`random`], [`specials`] and [`damages`]: lists at random, as
//!   they should be and damaged; [`fixed`]: lists that are each about one thing.
//! - [`memory`]: memory that ends at an unmapped page; [`stops`]: which list it
//!   was that went past its end.
//! - [`comparison`] and [`coverage`]: the library's answers held against the
//!   reference's, and what the lists reached; [`stored`]: the fixed lists with
//!   their answers, for where there is no Rust.

pub mod checks;
pub mod comparison;
pub mod coverage;
pub mod damages;
pub mod drafts;
pub mod fixed;
pub mod memory;
pub mod random;
pub mod records;
pub mod reference;
pub mod specials;
pub mod stops;
pub mod stored;

use crate::arguments::Arguments;
use random::Drawn;

/// A list, and the bytes of the output that it is played into.
#[derive(Clone, Debug)]
pub struct Case {
    /// What it is called where it shows a difference.
    pub name: String,
    pub list: Vec<u8>,
    pub out_len: usize,
}

/// What the output holds before it is played into, byte by byte.
#[must_use]
pub fn before(place: usize) -> u8 {
    (place % 251) as u8
}

/// The fixed lists and so many random ones.
///
/// # Errors
///
/// The reference doesn't answer a fixed list as expected.
pub fn all(Arguments { seed, cases }: Arguments) -> Result<impl Iterator<Item = Drawn>, String> {
    let fixed = fixed::cases()?.into_iter().chain(fixed::sweeps());
    let fixed = fixed.map(Drawn::undamaged).collect();
    Ok(random::lists(seed).after(fixed, cases))
}
