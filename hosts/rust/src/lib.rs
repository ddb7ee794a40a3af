//! Worfelli's envelopes for Rust hosts: a live bank, called note by note and block by block, and whole
//! event lists, played by one call.
//!
//! # A live bank
//!
//! An [`EnvelopeBank`] has up to 64 voices, each with its own settings. Notes start and end between blocks
//! of frames, and a block can be of any length:
//!
//! ```
//! use worfelli::{EnvelopeBank, EnvelopeParams, Timing, Trigger};
//!
//! let params = EnvelopeParams { attack: 10.0, release: 120.0, ..EnvelopeParams::AMP };
//! let mut bank = EnvelopeBank::new(16, params, Timing::new(48_000.0))?;
//! let stride = bank.stride();
//! let mut block = vec![0.0; 64 * stride];
//!
//! // Key 3 is held for ten blocks.
//! bank.trigger(3, Trigger::New)?;
//! let mut blocks = 0;
//! while !bank.is_idle(3)? {
//!     if blocks == 10 {
//!         bank.release(3)?;
//!     }
//!     bank.process(&mut block)?;
//!     for frame in block.chunks_exact(stride) {
//!         // What the pipe of key 3 is multiplied by; voice 0 is idle.
//!         let _pipe = frame[3];
//!         assert_eq!(frame[0], 0.0);
//!     }
//!     blocks += 1;
//! }
//! // The release is 5760 frames, which is 90 blocks.
//! assert_eq!(blocks, 100);
//! # Ok::<(), worfelli::Refusal>(())
//! ```
//!
//! # Event lists
//!
//! A [`List`] is a whole take: a bank is opened, then come notes, changes of settings and frames, in
//! order. docs/FORMAT.md in the repository says what each record means, byte by byte. [`play_levels`]
//! writes the levels as floats, [`play`] as bytes.
//!
//! ```
//! use worfelli::{EnvelopeParams, Event, List, Timing, Trigger, play_levels, stride};
//!
//! // A note on voice 1 of two. A millisecond is 48 frames, and so long is the attack.
//! let list = List::from([
//!     Event::Open { voices: 2, timing: Timing::new(48_000.0), params: EnvelopeParams::AMP },
//!     Event::Trigger { voice: 1, trigger: Trigger::New },
//!     Event::Frames(100),
//!     Event::Release(1),
//!     Event::Frames(20),
//! ]);
//! let mut levels = vec![0.0; list.levels()?];
//! let frames = play_levels(list.as_bytes(), &mut levels)?;
//! assert_eq!(frames, 120);
//!
//! let voice_1: Vec<f32> = levels.chunks(stride(2)).map(|frame| frame[1]).collect();
//! assert!(voice_1[0] == 0.0 && voice_1[47] < 1.0 && voice_1[48] == 1.0);
//! # Ok::<(), worfelli::Refused>(())
//! ```
//!
//! A list that breaks the rules is refused, and the error says by what and where:
//!
//! ```
//! use worfelli::{EnvelopeParams, Event, List, Refusal, Timing, play_levels};
//!
//! let list = List::from([
//!     Event::Open { voices: 2, timing: Timing::new(48_000.0), params: EnvelopeParams::AMP },
//!     Event::Release(2),
//! ]);
//! let refused = play_levels(list.as_bytes(), &mut []).unwrap_err();
//! assert_eq!(refused.refusal, Refusal::NoSuchVoice);
//! assert_eq!(refused.to_string(), "refused 2 at byte 75: no such voice");
//! ```
//!
//! # Threads and floating point
//!
//! A bank's calls, and the functions that play and check lists, keep nothing but what stands in the bank,
//! allocate nothing and make no system call, so that an audio thread may call them. They give the same
//! bits in whatever floating-point mode the thread runs, with flush-to-zero set too: they set IEEE 754's
//! default mode for the time of the call and leave the thread the mode that it had.

#![deny(missing_docs)]

#[cfg(not(all(
    target_arch = "x86_64",
    target_os = "linux",
    target_pointer_width = "64"
)))]
compile_error!("Worfelli's library is for x86-64 Linux");

mod bank;
mod list;
mod raw;
mod record;
mod refusal;
mod settings;
mod stage;

pub use bank::{EnvelopeBank, OtherVersion};
pub use list::{Event, Events, List};
pub use refusal::{Refusal, Refused};
pub use settings::{EnvelopeParams, StealRestart, TimeUnit, Timing, Trigger};
pub use stage::Stage;

/// The most voices that a bank can have.
pub const MAX_VOICES: u8 = 64;

/// Levels in a frame of so many voices: their count rounded up to a multiple of 16, and at least 16.
///
/// A bank tells its own by [`EnvelopeBank::stride`].
#[must_use]
pub const fn stride(voices: u8) -> usize {
    stride_of(voices as usize)
}

const fn stride_of(voices: usize) -> usize {
    if voices == 0 {
        16
    } else {
        voices.next_multiple_of(16)
    }
}

/// Plays a list into bytes, four a level, the lowest first, and answers the frames written.
///
/// The whole list is checked first. Frame after frame is then written from the first byte on,
/// [`stride`] levels each: the voices in their order, then +0 in the spare lanes. Bytes past the frames
/// are untouched. An output of n bytes holds n / 4 levels, rounded down.
///
/// [`List::frames`] says how many frames there will be, and [`List::levels`] how many levels: four times as
/// many bytes hold the list. A list that is only bytes is made one by [`List::from_bytes`].
///
/// # Errors
///
/// By what the list is refused and where. The output is then untouched.
///
/// # Panics
///
/// If the library refuses by a number that no [`Refusal`] has. Only a library of another version than
/// this crate can.
pub fn play(list: &[u8], out: &mut [u8]) -> Result<usize, Refused> {
    let frames = raw::play(list, out);
    usize::try_from(frames).map_err(|_| Refused {
        refusal: Refusal::numbered(frames.unsigned_abs()),
        at: raw::refused_at(list, out.len()),
    })
}

/// Plays a list into floats: the levels that [`play`] writes, `out[k * stride + v]` being voice v's in
/// frame k.
///
/// [`List::levels`] says how long an output has to be: the list's [frames](List::frames) times the
/// [`stride`] of its [voices](List::voices).
///
/// # Errors
///
/// As [`play`].
///
/// # Panics
///
/// As [`play`].
pub fn play_levels(list: &[u8], out: &mut [f32]) -> Result<usize, Refused> {
    play(list, raw::bytes_of(out))
}

/// Where [`play`] would refuse a list with an output of so many bytes, if it would: the first byte of
/// the refused record.
///
/// It only checks, and does not tell by what the list is refused. `usize::MAX` stands for an output that
/// is long enough.
#[must_use]
pub fn refused_at(list: &[u8], out_len: usize) -> Option<usize> {
    let at = raw::refused_at(list, out_len);
    // The library answers the list's length if nothing is refused. No record begins there, but an
    // empty list is refused at byte 0, which is its length as well.
    (at < list.len() || list.is_empty()).then_some(at)
}

/// The examples of the README, to be run as tests.
#[cfg(doctest)]
#[doc = include_str!("../README.md")]
struct Readme;
