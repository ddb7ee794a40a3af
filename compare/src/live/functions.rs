//! The functions on a live bank, and the bank in this program's memory that they
//! are called on: the header's own, by the names that live/calls.c gives them,
//! and those on four arrays apart, by the names of live/apart.c.

use crate::calls::Settings;
use crate::rust::envelope::Timing;

/// A bank as the header has it: plain numbers, of which only the functions
/// know what they mean.
#[repr(C)]
#[derive(Clone, Copy, Debug)]
pub struct LiveBank {
    bends: Bends,
    counts: Counts,
    floats: Floats,
    codes: Codes,
    version: u32,
}

type Bends = [f64; 131];
type Counts = [u64; 192];
type Floats = [f32; 1236];
type Codes = [u32; 389];

/// The bytes of a bank, and of each of its arrays.
pub const BYTES: usize = 9088;
pub const ARRAYS: [usize; 4] = [
    size_of::<Bends>(),
    size_of::<Counts>(),
    size_of::<Floats>(),
    size_of::<Codes>(),
];

/// The version of the header that this is written for.
pub const VERSION: u32 = 1;

const _: () = assert!(size_of::<LiveBank>() == BYTES);

/// A bank's arrays, each somewhere else.
#[repr(C)]
pub struct Arrays<'a> {
    bends: &'a mut Bends,
    counts: &'a mut Counts,
    floats: &'a mut Floats,
    codes: &'a mut Codes,
}

/// A timing as the header has it.
#[repr(C)]
pub struct Clock {
    sample_rate: f64,
    tempo: f64,
    scale: f64,
}

impl From<&Timing> for Clock {
    fn from(timing: &Timing) -> Self {
        Self {
            sample_rate: timing.sample_rate,
            tempo: timing.tempo,
            scale: timing.scale,
        }
    }
}

/// The calls on a bank. Each answers 0 or the number that it is refused by.
pub trait Functions {
    fn open(&mut self, voices: usize, settings: &Settings, timing: &Timing) -> u32;
    fn set_params(&mut self, voice: usize, settings: &Settings) -> u32;
    fn set_all_params(&mut self, settings: &Settings) -> u32;
    fn set_timing(&mut self, timing: &Timing) -> u32;
    fn trigger(&mut self, voice: usize, kind: u32) -> u32;
    fn chord(&mut self, voices: &[usize], kind: u32) -> u32;
    fn release(&mut self, voice: usize) -> u32;
    fn reset(&mut self, voice: usize) -> u32;
    fn join(&mut self, voice: usize, from: usize) -> u32;
    fn process(&mut self, out: &mut [f32]) -> u32;
    fn voices(&self) -> usize;
    fn stride(&self) -> usize;
    fn params(&self, voice: usize, settings: &mut Settings) -> u32;
    fn stage(&self, voice: usize, stage: &mut u32) -> u32;
    fn level(&self, voice: usize, level: &mut f32) -> u32;
    fn is_idle(&self, voice: usize, idle: &mut u32) -> u32;
    fn tail(&self, voice: usize, frames: &mut u64) -> u32;
    fn lead(&self, voice: usize, frames: &mut u64) -> u32;
}

/// Those on a bank that is held so, by C's names.
macro_rules! functions {
    ($held:ty: $open:ident, $set_params:ident, $set_all_params:ident, $set_timing:ident,
     $trigger:ident, $chord:ident, $release:ident, $reset:ident, $join:ident, $process:ident,
     $voices:ident, $stride:ident, $params:ident, $stage:ident, $level:ident, $is_idle:ident,
     $tail:ident, $lead:ident) => {
        // SAFETY: the safe ones are proved total on every value of their types, and
        // read and write what they are lent alone. Settings are the header's, field
        // by field.
        unsafe extern "C" {
            safe fn $open(
                bank: &mut $held,
                voices: usize,
                params: &Settings,
                timing: &Clock,
            ) -> u32;
            safe fn $set_params(bank: &mut $held, voice: usize, params: &Settings) -> u32;
            safe fn $set_all_params(bank: &mut $held, params: &Settings) -> u32;
            safe fn $set_timing(bank: &mut $held, timing: &Clock) -> u32;
            safe fn $trigger(bank: &mut $held, voice: usize, kind: u32) -> u32;
            fn $chord(bank: &mut $held, voices: *const usize, count: usize, kind: u32) -> u32;
            safe fn $release(bank: &mut $held, voice: usize) -> u32;
            safe fn $reset(bank: &mut $held, voice: usize) -> u32;
            safe fn $join(bank: &mut $held, voice: usize, from: usize) -> u32;
            fn $process(bank: &mut $held, out: *mut f32, levels: usize) -> u32;
            safe fn $voices(bank: &$held) -> usize;
            safe fn $stride(bank: &$held) -> usize;
            safe fn $params(bank: &$held, voice: usize, params: &mut Settings) -> u32;
            safe fn $stage(bank: &$held, voice: usize, stage: &mut u32) -> u32;
            safe fn $level(bank: &$held, voice: usize, level: &mut f32) -> u32;
            safe fn $is_idle(bank: &$held, voice: usize, idle: &mut u32) -> u32;
            safe fn $tail(bank: &$held, voice: usize, frames: &mut u64) -> u32;
            safe fn $lead(bank: &$held, voice: usize, frames: &mut u64) -> u32;
        }

        impl Functions for $held {
            fn open(&mut self, voices: usize, settings: &Settings, timing: &Timing) -> u32 {
                $open(self, voices, settings, &timing.into())
            }

            fn set_params(&mut self, voice: usize, settings: &Settings) -> u32 {
                $set_params(self, voice, settings)
            }

            fn set_all_params(&mut self, settings: &Settings) -> u32 {
                $set_all_params(self, settings)
            }

            fn set_timing(&mut self, timing: &Timing) -> u32 {
                $set_timing(self, &timing.into())
            }

            fn trigger(&mut self, voice: usize, kind: u32) -> u32 {
                $trigger(self, voice, kind)
            }

            fn chord(&mut self, voices: &[usize], kind: u32) -> u32 {
                // SAFETY: as for the others; pointer and count are those of a slice.
                unsafe { $chord(self, voices.as_ptr(), voices.len(), kind) }
            }

            fn release(&mut self, voice: usize) -> u32 {
                $release(self, voice)
            }

            fn reset(&mut self, voice: usize) -> u32 {
                $reset(self, voice)
            }

            fn join(&mut self, voice: usize, from: usize) -> u32 {
                $join(self, voice, from)
            }

            fn process(&mut self, out: &mut [f32]) -> u32 {
                // SAFETY: as for the others; pointer and length are those of a slice.
                unsafe { $process(self, out.as_mut_ptr(), out.len()) }
            }

            fn voices(&self) -> usize {
                $voices(self)
            }

            fn stride(&self) -> usize {
                $stride(self)
            }

            fn params(&self, voice: usize, settings: &mut Settings) -> u32 {
                $params(self, voice, settings)
            }

            fn stage(&self, voice: usize, stage: &mut u32) -> u32 {
                $stage(self, voice, stage)
            }

            fn level(&self, voice: usize, level: &mut f32) -> u32 {
                $level(self, voice, level)
            }

            fn is_idle(&self, voice: usize, idle: &mut u32) -> u32 {
                $is_idle(self, voice, idle)
            }

            fn tail(&self, voice: usize, frames: &mut u64) -> u32 {
                $tail(self, voice, frames)
            }

            fn lead(&self, voice: usize, frames: &mut u64) -> u32 {
                $lead(self, voice, frames)
            }
        }
    };
}

functions!(LiveBank: compare_bank_open, compare_bank_set_params, compare_bank_set_all_params,
    compare_bank_set_timing, compare_bank_trigger, compare_bank_chord, compare_bank_release,
    compare_bank_reset, compare_bank_join, compare_bank_process, compare_bank_voices,
    compare_bank_stride, compare_bank_params, compare_bank_stage, compare_bank_level,
    compare_bank_is_idle, compare_bank_tail, compare_bank_lead);

functions!(Arrays<'_>: compare_apart_open, compare_apart_set_params, compare_apart_set_all_params,
    compare_apart_set_timing, compare_apart_trigger, compare_apart_chord, compare_apart_release,
    compare_apart_reset, compare_apart_join, compare_apart_process, compare_apart_voices,
    compare_apart_stride, compare_apart_params, compare_apart_stage, compare_apart_level,
    compare_apart_is_idle, compare_apart_tail, compare_apart_lead);

// SAFETY: as above.
unsafe extern "C" {
    safe fn compare_agrees() -> i32;
    fn compare_live_chord(
        bank: &mut LiveBank,
        voices: *const usize,
        count: usize,
        kind: u32,
    ) -> u32;
}

/// Whether header and library agree on a bank.
#[must_use]
pub fn agrees() -> bool {
    compare_agrees() != 0
}

impl LiveBank {
    /// The bank that these bytes are.
    ///
    /// # Panics
    ///
    /// They are not [`BYTES`], or begin at an odd place.
    pub fn of(bytes: &mut [u8]) -> &mut Self {
        // SAFETY: a bank is numbers without a gap.
        unsafe { numbers(bytes) }
    }

    /// Its bytes.
    #[must_use]
    pub fn bytes(&self) -> &[u8] {
        // SAFETY: as above, and each number's bytes can be read.
        unsafe { std::slice::from_raw_parts((&raw const *self).cast(), BYTES) }
    }

    /// A bank of zeros, to be opened.
    #[must_use]
    pub const fn zeros() -> Self {
        Self {
            bends: [0.0; 131],
            counts: [0; 192],
            floats: [0.0; 1236],
            codes: [0; 389],
            version: 0,
        }
    }

    /// A chord by `worfelli_live_chord`.
    pub fn live_chord(&mut self, voices: &[usize], kind: u32) -> u32 {
        // SAFETY: pointer and count are those of a slice.
        unsafe { compare_live_chord(self, voices.as_ptr(), voices.len(), kind) }
    }

    /// What was written by the opening.
    #[must_use]
    pub fn version(&self) -> u32 {
        self.version
    }
}

impl<'a> Arrays<'a> {
    /// The arrays that these bytes are, in the order of a bank.
    ///
    /// # Panics
    ///
    /// They are not [`ARRAYS`], or begin at an odd place.
    pub fn of([bends, counts, floats, codes]: [&'a mut [u8]; 4]) -> Self {
        // SAFETY: an array is numbers without a gap.
        unsafe {
            Self {
                bends: numbers(bends),
                counts: numbers(counts),
                floats: numbers(floats),
                codes: numbers(codes),
            }
        }
    }
}

/// The numbers that these bytes are.
///
/// # Safety
///
/// `T` is numbers without a gap: any bytes are some.
unsafe fn numbers<T>(bytes: &mut [u8]) -> &mut T {
    // SAFETY: as the caller says.
    match unsafe { bytes.align_to_mut::<T>() } {
        ([], [numbers], []) => numbers,
        _ => panic!("these bytes are no bank or array"),
    }
}
