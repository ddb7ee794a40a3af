//! The comparison of live banks, as a C host and a Rust host hold them.
//!
//! - [`functions`]: the header's functions as a C compiler makes them, and the
//!   bank in memory that they are called on; and those on arrays apart.
//! - [`hosts`]: what a bank is asked, however it is held; [`through_c`] by the
//!   header's functions, [`through_apart`] by those on arrays apart,
//!   [`through_rust`] by the crate worfelli; [`outputs`]: the memory that they
//!   write to.
//! - [`expected`]: what the Rust says to each call of a list of [`banks`], and
//!   of every voice after it; [`checked`]: a host's answers held against that.
//! - [`coded`], [`unnamed`] and [`coverage`]: codes that mean nothing, which
//!   only C can carry, and which of them were asked.
//! - [`comparison`]: lists through all three; [`places`]: where a case stands.
//!
//! [`banks`]: crate::banks

pub mod checked;
pub mod coded;
pub mod comparison;
pub mod coverage;
pub mod expected;
pub mod functions;
pub mod hosts;
pub mod outputs;
pub mod places;
pub mod through_apart;
pub mod through_c;
pub mod through_rust;
pub mod unnamed;
