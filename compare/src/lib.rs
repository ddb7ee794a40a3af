//! Holds the Rattle envelope against the Rust that it was carried over from,
//! bits against bits.
//!
//! - [`rust`]: the Rust itself, derived from its sources while building (see
//!   `build.rs`), with [`stand_ins`] and [`simd`] in place of what varies by
//!   machine or is not among its sources.
//! - [`library`]: what the static libraries made from the Rattle export.
//! - [`replay`]: the Rattle's program that plays calls on an envelope and on a
//!   bank, asked; [`stored`]: what it is run on where there is no Rust.
//! - [`calls`], with the bytes of both directions, and [`comparison`]: the
//!   single envelope's calls and answers; [`banks`]: the same of the bank;
//!   [`live`]: banks as hosts hold them; [`players`]: event lists and the player
//!   of them.
//! - [`reference`](mod@reference): the Rust's envelope, with what document 01 adds to it.
//! - [`random`], [`floats`], [`times`] and [`settings`]: the inputs; [`fixed`]
//!   and [`random_lists`]: lists of calls, with the Rust's answers in [`lists`];
//!   [`series`]: fixed lists and random ones, one after another.
//! - [`measured`]: banks in loops, for the measurements.
//! - [`program`]: the frame of a program that compares, with its [`arguments`]
//!   and its [`report`]; [`coverage`]: what the envelope's lists reached.
//!
//! `cargo run --release --bin numbers` compares the number helpers, `--bin
//! envelopes` the single envelope, `--bin banks` the bank, `--bin live` the bank
//! as C and Rust hosts call it, `--bin players` the player, and `--bin bench`
//! measures all of them.

pub mod arguments;
pub mod banks;
pub mod calls;
pub mod comparison;
pub mod coverage;
pub mod fixed;
pub mod floats;
pub mod library;
pub mod lists;
pub mod live;
pub mod measured;
pub mod players;
pub mod program;
pub mod random;
pub mod random_lists;
pub mod reference;
pub mod replay;
pub mod report;
pub mod series;
pub mod settings;
pub mod simd;
pub mod stand_ins;
pub mod stored;
pub mod times;

/// The derived Rust.
pub mod rust {
    include!(concat!(env!("OUT_DIR"), "/rust.rs"));
}
