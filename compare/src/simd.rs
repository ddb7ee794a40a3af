//! The lanes that the derived Rust draws its bank with: only the portable
//! level, and of its operations only those that the bank uses, one binary32
//! operation per lane. The Rust's own is not among its sources.

use std::ops::{Add, Mul};
use std::sync::atomic::{AtomicBool, Ordering};

static STILL_SHORTCUT: AtomicBool = AtomicBool::new(false);

/// Whether a group of lanes that stand still is drawn by the Rust's shortcut.
/// Comparisons leave it off; measurements are fair to the Rust with it.
#[must_use]
pub fn still_shortcut() -> bool {
    STILL_SHORTCUT.load(Ordering::Relaxed)
}

/// Turns the shortcut on, for good.
pub fn use_still_shortcut() {
    STILL_SHORTCUT.store(true, Ordering::Relaxed);
}

/// An instruction set that lanes can run on.
#[derive(Clone, Copy, Debug, PartialEq, Eq)]
pub enum Level {
    /// Plain arrays, on any machine.
    Portable,
}

impl Level {
    #[must_use]
    pub fn is_supported(self) -> bool {
        true
    }
}

/// The level that kernels run at.
#[must_use]
pub fn level() -> Level {
    Level::Portable
}

/// Lanes of `f32`, operated on together.
pub trait F32s: Copy + Add<Output = Self> + Mul<Output = Self> {
    /// How many lanes it holds.
    const LANES: usize;

    /// The first `LANES` values of a slice, which has to hold that many.
    fn load(values: &[f32]) -> Self;

    /// Puts them back at the start of a slice, likewise.
    fn store(self, values: &mut [f32]);
}

/// A computation written once for any lanes.
pub trait Kernel {
    type Output;

    fn run<S: F32s>(self) -> Self::Output;
}

/// Runs `kernel` at a level. It would come back as the error if this machine
/// lacked that level, which it never does.
pub fn dispatch_at<K>(at: Level, kernel: K) -> Result<K::Output, K>
where
    K: Kernel,
{
    match at {
        Level::Portable => Ok(kernel.run::<Four>()),
    }
}

/// Four lanes.
#[derive(Clone, Copy)]
struct Four([f32; 4]);

impl Four {
    /// `operation` on each pair of lanes.
    fn pairwise(self, other: Self, operation: impl Fn(f32, f32) -> f32) -> Self {
        Self(std::array::from_fn(|lane| {
            operation(self.0[lane], other.0[lane])
        }))
    }
}

impl Add for Four {
    type Output = Self;

    fn add(self, other: Self) -> Self {
        self.pairwise(other, |a, b| a + b)
    }
}

impl Mul for Four {
    type Output = Self;

    fn mul(self, other: Self) -> Self {
        self.pairwise(other, |a, b| a * b)
    }
}

impl F32s for Four {
    const LANES: usize = 4;

    fn load(values: &[f32]) -> Self {
        Self(std::array::from_fn(|lane| values[lane]))
    }

    fn store(self, values: &mut [f32]) {
        values[..Self::LANES].copy_from_slice(&self.0);
    }
}
