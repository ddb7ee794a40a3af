//! Banks and a single envelope as the measurements use them, over and over:
//! [`asked`] is what is asked, [`through_c`] a bank over C, [`through_rust`] one
//! of the crate of hosts/rust, [`reference`](mod@reference) the Rust's own bank
//! and [`single`] its single envelope. The loops are the host's own, in C for C,
//! with the calls in them inlined as far as they are Rust; none of the loops is
//! inlined into the measuring.

pub mod asked;
pub mod reference;
pub mod single;
pub mod through_c;
pub mod through_rust;

use std::hint::black_box;

use crate::banks::refusals::stride;
use asked::{Chord, Kind, Opening, Query, Sound, VOICES};

/// What is measured, which holds voices. What is asked is never refused.
pub trait Measured: Sized {
    /// The levels of a frame of so many voices.
    #[must_use]
    fn levels(voices: usize) -> usize {
        stride(voices as u64) as usize
    }

    /// A fresh one.
    fn opened(opening: Opening) -> Self;

    /// A fresh one, and its notes.
    #[must_use]
    fn triggered(opening: Opening) -> Self {
        let mut measured = Self::opened(opening);
        measured.calls(opening.sound, Kind::Trigger, opening.notes);
        measured
    }

    /// So many openings in its place.
    #[inline(never)]
    fn opens(&mut self, opening: Opening, times: u32) {
        for _ in 0..times {
            *black_box(&mut *self) = Self::opened(black_box(opening));
        }
    }

    /// So many calls of a kind on the voices in turn.
    fn calls(&mut self, sound: Sound, kind: Kind, calls: u32);

    /// So many chords, each of the next voices in turn, of which there are a
    /// multiple: as calls on each, where none is for a chord.
    fn chords(&mut self, sound: Sound, chord: Chord, chords: u32) {
        self.calls(sound, chord.kind(), chords * chord.voices as u32);
    }

    /// So many blocks, each into `out`.
    fn blocks(&mut self, out: &mut [f32], blocks: u32);

    /// The sum of so many readings of the voices in turn, modulo 2^64.
    fn readings(&self, query: Query, times: u32) -> u64;
}

/// The voices of chords, in turn.
fn turn() -> [usize; VOICES] {
    std::array::from_fn(|voice| voice)
}

/// The voice after this one, in turn.
fn after(voice: usize, voices: usize) -> usize {
    if voice + 1 < voices { voice + 1 } else { 0 }
}

/// So many voices in turn, from the first one on.
fn turns(voices: usize, times: u32) -> impl Iterator<Item = usize> {
    let mut next = 0;
    (0..times).map(move |_| {
        let voice = next;
        next = after(voice, voices);
        voice
    })
}
