//! The library's functions and a bank's numbers (include/worfelli.h). All unsafe code is here.
#![allow(unsafe_code)]

use std::arch::asm;

/// The version of include/worfelli.h that this file follows.
pub(crate) const VERSION: u32 = 1;

/// The first and the last version whose banks lie as this one's.
pub(crate) const BANK_SINCE: u32 = 1;
pub(crate) const BANK_UNTIL: u32 = 2;

const BENDS: usize = 131;
const COUNTS: usize = 192;
const FLOATS: usize = 1236;
const CODES: usize = 389;

/// A `worfelli_bank`. Whatever bytes stand in it are some bank.
#[derive(Clone)]
#[repr(C)]
pub(crate) struct State {
    bends: [f64; BENDS],
    counts: [u64; COUNTS],
    floats: [f32; FLOATS],
    codes: [u32; CODES],
    pub(crate) version: u32,
}

/// The bytes of a bank.
pub(crate) const SIZE: usize = 9088;

// The header's size, which is also that of the fields alone: there is no gap.
const _: () = assert!(size_of::<State>() == SIZE);
const _: () = assert!(8 * (BENDS + COUNTS) + 4 * (FLOATS + CODES + 1) == SIZE);

// SAFETY: these are the header's declarations. A size_t and a uint64_t are both a usize on x86-64. A
// function that is safe takes nothing but numbers, banks, and arrays of the lengths that the header gives; a
// reference to an array is a pointer to its first number, and what is lent mutably overlaps nothing else.
unsafe extern "C" {
    safe fn worfelli_version() -> u32;
    safe fn worfelli_bank_size() -> usize;

    pub(crate) safe fn worfelli_struct_open(
        bank: &mut State,
        voices: usize,
        numbers: &[f32; 11],
        named: &[u32; 3],
        sample_rate: f64,
        tempo: f64,
        scale: f64,
    ) -> u32;
    pub(crate) safe fn worfelli_struct_set_params(
        bank: &mut State,
        voice: usize,
        numbers: &[f32; 11],
        named: &[u32; 3],
    ) -> u32;
    pub(crate) safe fn worfelli_struct_set_all_params(
        bank: &mut State,
        numbers: &[f32; 11],
        named: &[u32; 3],
    ) -> u32;
    pub(crate) safe fn worfelli_struct_set_timing(
        bank: &mut State,
        sample_rate: f64,
        tempo: f64,
        scale: f64,
    ) -> u32;
    pub(crate) safe fn worfelli_struct_trigger(bank: &mut State, voice: usize, kind: u32) -> u32;
    fn worfelli_struct_chord(
        bank: &mut State,
        voices: *const usize,
        count: usize,
        kind: u32,
    ) -> u32;
    pub(crate) safe fn worfelli_struct_release(bank: &mut State, voice: usize) -> u32;
    pub(crate) safe fn worfelli_struct_reset(bank: &mut State, voice: usize) -> u32;
    pub(crate) safe fn worfelli_struct_join(bank: &mut State, voice: usize, from: usize) -> u32;
    fn worfelli_struct_process(bank: &mut State, out: *mut f32, levels: usize) -> u32;

    pub(crate) safe fn worfelli_struct_voices(bank: &State) -> usize;
    pub(crate) safe fn worfelli_struct_stride(bank: &State) -> usize;
    pub(crate) safe fn worfelli_struct_params(
        bank: &State,
        voice: usize,
        numbers: &mut [f32; 11],
        named: &mut [u32; 3],
    ) -> u32;
    pub(crate) safe fn worfelli_struct_stage(bank: &State, voice: usize, stage: &mut u32) -> u32;
    pub(crate) safe fn worfelli_struct_level(bank: &State, voice: usize, level: &mut f32) -> u32;
    pub(crate) safe fn worfelli_struct_is_idle(bank: &State, voice: usize, idle: &mut u32) -> u32;
    pub(crate) safe fn worfelli_struct_tail(bank: &State, voice: usize, frames: &mut u64) -> u32;
    pub(crate) safe fn worfelli_struct_lead(bank: &State, voice: usize, frames: &mut u64) -> u32;

    fn worfelli_list_info(
        list: *const u8,
        list_len: usize,
        voices: &mut usize,
        frames: &mut u64,
    ) -> u32;
    fn worfelli_play(list: *const u8, list_len: usize, out: *mut u8, out_len: usize) -> i64;
    fn worfelli_refused_at(list: *const u8, list_len: usize, out_len: usize) -> usize;
}

/// IEEE 754's default mode as the register MXCSR has it: rounding to nearest, subnormals kept,
/// exceptions masked.
const DEFAULT_MODE: u32 = 0x1f80;

impl State {
    /// All zeros, for the library to open.
    ///
    /// As every way to a state, it panics if the linked library is not this file's: one with longer
    /// arrays would read and write past these.
    pub(crate) fn new() -> Self {
        assert_agreement(worfelli_version(), worfelli_bank_size());
        Self {
            bends: [0.0; BENDS],
            counts: [0; COUNTS],
            floats: [0.0; FLOATS],
            codes: [0; CODES],
            version: VERSION,
        }
    }

    /// The state with these bytes. Panics as `new`.
    pub(crate) fn from_bytes(bytes: &[u8; SIZE]) -> Self {
        assert_agreement(worfelli_version(), worfelli_bank_size());
        // SAFETY: as many bytes as the state has, whose fields are numbers: any bytes are some.
        unsafe { bytes.as_ptr().cast::<Self>().read_unaligned() }
    }

    /// Its bytes in memory.
    pub(crate) fn as_bytes(&self) -> &[u8; SIZE] {
        // SAFETY: these are the state's own bytes, lent for as long as it is. There is no gap among them,
        // and bytes need no alignment.
        unsafe { &*(&raw const *self).cast() }
    }
}

/// That a library of this version, with banks of this size, is the one that this file is written for.
fn assert_agreement(version: u32, size: usize) {
    assert!(
        version == VERSION && size == SIZE,
        "libworfelli.a is of version {version} with banks of {size} bytes, but this crate is for \
         version {VERSION} with banks of {SIZE} bytes"
    );
}

/// Triggers these voices, and answers 0 or the refusal's number.
#[inline]
pub(crate) fn chord(state: &mut State, voices: &[usize], kind: u32) -> u32 {
    in_default_mode(|| {
        // SAFETY: pointer and count are those of a slice, so the pointer is aligned and not null, an empty
        // one's too. The voices are only read, and the state is lent mutably, so that they do not overlap.
        unsafe { worfelli_struct_chord(state, voices.as_ptr(), voices.len(), kind) }
    })
}

/// Writes the next frames, and answers 0 or the refusal's number.
#[inline]
pub(crate) fn process(state: &mut State, out: &mut [f32]) -> u32 {
    in_default_mode(|| {
        // SAFETY: pointer and length are those of a slice that may be written. It is lent mutably, as the
        // state is, so that they do not overlap.
        unsafe { worfelli_struct_process(state, out.as_mut_ptr(), out.len()) }
    })
}

/// The voices and the frames of a list, or the refusal's number.
pub(crate) fn list_info(list: &[u8]) -> Result<(usize, u64), u32> {
    let (mut voices, mut frames) = (0, 0);
    let number = in_default_mode(|| {
        // SAFETY: pointer and length are those of a slice. What is written lies elsewhere.
        unsafe { worfelli_list_info(list.as_ptr(), list.len(), &mut voices, &mut frames) }
    });
    if number == 0 {
        Ok((voices, frames))
    } else {
        Err(number)
    }
}

/// The frames written, or minus the refusal's number.
pub(crate) fn play(list: &[u8], out: &mut [u8]) -> i64 {
    in_default_mode(|| {
        // SAFETY: pointers and lengths are those of two slices, so no pointer is null. The list may be
        // read and the output written, and since the output is lent mutably they do not overlap.
        unsafe { worfelli_play(list.as_ptr(), list.len(), out.as_mut_ptr(), out.len()) }
    })
}

/// The refused record's first byte, or the list's length.
pub(crate) fn refused_at(list: &[u8], out_len: usize) -> usize {
    in_default_mode(|| {
        // SAFETY: pointer and length are those of a slice. The output's length is only a number.
        unsafe { worfelli_refused_at(list.as_ptr(), list.len(), out_len) }
    })
}

/// The bytes of floats in memory; on x86-64 the lowest comes first, as in the player's output.
pub(crate) fn bytes_of(levels: &mut [f32]) -> &mut [u8] {
    let len = size_of_val(levels);
    // SAFETY: these are the floats' own bytes, lent for as long as the floats are. A float is four
    // bytes without a gap, any four bytes are a float, and bytes need no alignment.
    unsafe { std::slice::from_raw_parts_mut(levels.as_mut_ptr().cast(), len) }
}

/// Calls in IEEE 754's default mode, whatever the thread's is, and restores the thread's.
pub(crate) fn in_default_mode<T: Default, F: FnMut() -> T>(call: F) -> T {
    struct Job<T, F> {
        call: F,
        answer: T,
    }
    extern "C" fn run<T, F: FnMut() -> T>(job: &mut Job<T, F>) {
        job.answer = (job.call)();
    }
    let mut job = Job {
        call,
        answer: T::default(),
    };
    // The thread's mode, once it is stored, and the one to call in.
    let mut modes = [0, DEFAULT_MODE];
    // The change, the call and the way back are one block: Rust takes the mode for granted, so no change
    // may outlast the block that makes it.
    //
    // SAFETY: the block leaves the mode as it was. `run` is called as the C convention says, with the
    // stack as asm! hands it over; it gets a valid pointer, keeps r12, changes no register but those
    // given up, and never unwinds, since it is extern "C".
    unsafe {
        asm!(
            "stmxcsr [r12]",
            "ldmxcsr [r12 + 4]",
            "call {run}",
            "ldmxcsr [r12]",
            run = sym run::<T, F>,
            in("r12") &raw mut modes,
            in("rdi") &raw mut job,
            clobber_abi("C"),
        );
    }
    job.answer
}

#[cfg(test)]
mod tests {
    use super::*;

    #[test]
    fn this_library() {
        assert_agreement(worfelli_version(), worfelli_bank_size());
    }

    #[test]
    #[should_panic(expected = "libworfelli.a is of version 2 with banks of 9088 bytes")]
    fn another_version() {
        assert_agreement(VERSION + 1, SIZE);
    }

    #[test]
    #[should_panic(expected = "libworfelli.a is of version 1 with banks of 9096 bytes")]
    fn another_size() {
        assert_agreement(VERSION, SIZE + 8);
    }

    /// A function of the library knows the arrays alone, and the version lies behind the last of them.
    #[test]
    fn no_call_writes_the_version() {
        for byte in [0, 1, 0x5a, 0xff] {
            let mut state = State::from_bytes(&[byte; SIZE]);
            let version = state.version;
            let kept = |state: &State| assert_eq!(state.version, version);
            for voices in [65, 64, 3] {
                worfelli_struct_open(&mut state, voices, &[0.5; 11], &[0; 3], 48000.0, 120.0, 1.0);
                kept(&state);
            }
            worfelli_struct_open(&mut state, 3, &[0.5; 11], &[2; 3], 48000.0, 120.0, 1.0);
            kept(&state);
            state = State::from_bytes(&[byte; SIZE]);
            for voice in [0, 1, 63, 64] {
                worfelli_struct_set_params(&mut state, voice, &[0.25; 11], &[1; 3]);
                kept(&state);
                worfelli_struct_trigger(&mut state, voice, 0);
                kept(&state);
                chord(&mut state, &[voice, 2], 1);
                kept(&state);
                process(&mut state, &mut [0.0; 192]);
                kept(&state);
                worfelli_struct_release(&mut state, voice);
                kept(&state);
                worfelli_struct_join(&mut state, voice, 0);
                kept(&state);
                worfelli_struct_reset(&mut state, voice);
                kept(&state);
            }
            worfelli_struct_set_all_params(&mut state, &[0.75; 11], &[1; 3]);
            kept(&state);
            worfelli_struct_set_timing(&mut state, 44100.0, 60.0, 2.0);
            kept(&state);
        }
    }
}
