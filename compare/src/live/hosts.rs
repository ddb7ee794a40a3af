//! What a live bank is asked, however a host holds it.

use crate::banks::calls::{Call, Reading};
use crate::live::coded::Coded;

/// A live bank that is held against the Rust's.
pub trait Host {
    /// What it is called through.
    const NAME: &'static str;

    /// Whether every voice is read after each call, or one of them in turn.
    const READS_ALL: bool = true;

    /// All that its bank holds.
    type State: PartialEq;

    /// A list begins. Its first call is an opening.
    fn begin(&mut self);

    /// The number that answers `call`, which is not a reading. A process writes
    /// to `out`.
    fn call(&mut self, call: &Call, out: &mut [f32]) -> u32;

    /// What every reading of a voice says.
    fn reading(&mut self, voice: u64) -> Reading;

    fn state(&mut self) -> Self::State;
}

/// One that can be asked with any numbers in the codes' places.
pub trait Codes: Host {
    fn coded(&mut self, coded: &Coded) -> u32;
}
