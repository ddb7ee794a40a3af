//! A live bank: up to 64 envelopes under one clock, called note by note and block by block.

use std::error::Error;
use std::fmt;

use crate::raw::{self, State, in_default_mode};
use crate::{EnvelopeParams, Refusal, Stage, Timing, Trigger};

/// A bank of up to 64 voices, for an audio thread.
///
/// All of it is the [`SIZE`](Self::SIZE) bytes of the struct: no call allocates, takes a lock or makes a
/// system call. Voices are counted from 0. A call that is refused changes nothing, in the bank and in the
/// output. A clone goes on as the bank would have.
///
/// ```
/// use worfelli::{EnvelopeBank, EnvelopeParams, Refusal, Stage, Timing, Trigger};
///
/// let mut bank = EnvelopeBank::new(2, EnvelopeParams::AMP, Timing::new(48_000.0))?;
/// bank.trigger(1, Trigger::New)?;
/// assert_eq!(bank.stage(1), Ok(Stage::Attack));
/// // A millisecond, and so long is the attack.
/// let mut block = [0.0; 48 * 16];
/// bank.process(&mut block)?;
/// assert_eq!(bank.level(1), Ok(1.0));
/// assert_eq!(bank.trigger(2, Trigger::New), Err(Refusal::NoSuchVoice));
/// # Ok::<(), Refusal>(())
/// ```
#[derive(Clone)]
pub struct EnvelopeBank {
    state: State,
}

impl EnvelopeBank {
    /// How many bytes a bank is.
    pub const SIZE: usize = raw::SIZE;

    /// A bank of so many idle voices.
    ///
    /// # Errors
    ///
    /// [`TooManyVoices`](Refusal::TooManyVoices), [`RateOver`](Refusal::RateOver) and
    /// [`TimeOver`](Refusal::TimeOver), tested in this order.
    ///
    /// # Panics
    ///
    /// If the linked library is of another version than this crate.
    pub fn new(voices: usize, params: EnvelopeParams, timing: Timing) -> Result<Self, Refusal> {
        let (numbers, codes) = (params.numbers(), params.codes());
        let Timing {
            sample_rate: rate,
            tempo,
            scale,
        } = timing;
        let mut bank = Self {
            state: State::new(),
        };
        bank.change(|state| {
            raw::worfelli_struct_open(state, voices, &numbers, &codes, rate, tempo, scale)
        })?;
        Ok(bank)
    }

    /// The number of its voices.
    #[must_use]
    #[inline]
    pub fn voices(&self) -> usize {
        raw::worfelli_struct_voices(&self.state)
    }

    /// Levels in a frame: the voices rounded up to a multiple of 16, and at least 16.
    #[must_use]
    #[inline]
    pub fn stride(&self) -> usize {
        raw::worfelli_struct_stride(&self.state)
    }

    /// A voice's settings.
    ///
    /// # Errors
    ///
    /// [`NoSuchVoice`](Refusal::NoSuchVoice), as every method that names a voice.
    pub fn params(&self, voice: usize) -> Result<EnvelopeParams, Refusal> {
        let (numbers, codes) = self.read(|state, (numbers, codes)| {
            raw::worfelli_struct_params(state, voice, numbers, codes)
        })?;
        Ok(known(EnvelopeParams::of_parts(numbers, codes)))
    }

    /// New settings for a voice, from the next frame on.
    ///
    /// # Errors
    ///
    /// [`NoSuchVoice`](Refusal::NoSuchVoice), and then [`TimeOver`](Refusal::TimeOver).
    pub fn set_params(&mut self, voice: usize, params: EnvelopeParams) -> Result<(), Refusal> {
        let (numbers, codes) = (params.numbers(), params.codes());
        self.change(|state| raw::worfelli_struct_set_params(state, voice, &numbers, &codes))
    }

    /// New settings for every voice.
    ///
    /// # Errors
    ///
    /// [`TimeOver`](Refusal::TimeOver).
    pub fn set_all_params(&mut self, params: EnvelopeParams) -> Result<(), Refusal> {
        let (numbers, codes) = (params.numbers(), params.codes());
        self.change(|state| raw::worfelli_struct_set_all_params(state, &numbers, &codes))
    }

    /// Another sample rate, tempo or scale for every voice.
    ///
    /// # Errors
    ///
    /// [`RateOver`](Refusal::RateOver).
    pub fn set_timing(&mut self, timing: Timing) -> Result<(), Refusal> {
        let Timing {
            sample_rate: rate,
            tempo,
            scale,
        } = timing;
        self.change(|state| raw::worfelli_struct_set_timing(state, rate, tempo, scale))
    }

    /// A note starts on a voice.
    ///
    /// # Errors
    ///
    /// [`NoSuchVoice`](Refusal::NoSuchVoice).
    #[inline]
    pub fn trigger(&mut self, voice: usize, trigger: Trigger) -> Result<(), Refusal> {
        self.change(|state| raw::worfelli_struct_trigger(state, voice, trigger as u32))
    }

    /// A note starts on each of these voices, by one kind of trigger: as by a [`trigger`](Self::trigger) of
    /// each in the list's order, but a list that is refused starts none. An empty list is accepted.
    ///
    /// ```
    /// use worfelli::{EnvelopeBank, EnvelopeParams, Refusal, Stage, Timing, Trigger};
    ///
    /// let mut bank = EnvelopeBank::new(16, EnvelopeParams::AMP, Timing::new(48_000.0))?;
    /// bank.chord(&[3, 7, 10], Trigger::New)?;
    /// assert_eq!(bank.stage(7), Ok(Stage::Attack));
    /// assert_eq!(bank.chord(&[4, 16], Trigger::New), Err(Refusal::NoSuchVoice));
    /// assert_eq!(bank.stage(4), Ok(Stage::Idle));
    /// assert_eq!(bank.chord(&[4, 4], Trigger::New), Err(Refusal::NotAChord));
    /// # Ok::<(), Refusal>(())
    /// ```
    ///
    /// # Errors
    ///
    /// [`NotAChord`](Refusal::NotAChord), if a voice is named twice, be it there or not, or the list has over
    /// [`MAX_VOICES`](crate::MAX_VOICES) entries; and then [`NoSuchVoice`](Refusal::NoSuchVoice).
    #[inline]
    pub fn chord(&mut self, voices: &[usize], trigger: Trigger) -> Result<(), Refusal> {
        Refusal::unless_accepted(raw::chord(&mut self.state, voices, trigger as u32))
    }

    /// The note of a voice ends.
    ///
    /// # Errors
    ///
    /// [`NoSuchVoice`](Refusal::NoSuchVoice).
    #[inline]
    pub fn release(&mut self, voice: usize) -> Result<(), Refusal> {
        self.change(|state| raw::worfelli_struct_release(state, voice))
    }

    /// A voice is idle at once, at its end level.
    ///
    /// # Errors
    ///
    /// [`NoSuchVoice`](Refusal::NoSuchVoice).
    #[inline]
    pub fn reset(&mut self, voice: usize) -> Result<(), Refusal> {
        self.change(|state| raw::worfelli_struct_reset(state, voice))
    }

    /// A voice becomes a copy of `from` as that stands now, settings included.
    ///
    /// # Errors
    ///
    /// [`NoSuchVoice`](Refusal::NoSuchVoice), of either voice.
    #[inline]
    pub fn join(&mut self, voice: usize, from: usize) -> Result<(), Refusal> {
        self.change(|state| raw::worfelli_struct_join(state, voice, from))
    }

    /// Where a voice is.
    ///
    /// # Errors
    ///
    /// [`NoSuchVoice`](Refusal::NoSuchVoice).
    #[inline]
    pub fn stage(&self, voice: usize) -> Result<Stage, Refusal> {
        self.read(|state, code| raw::worfelli_struct_stage(state, voice, code))
            .map(|code| known(Stage::coded(code)))
    }

    /// The level that a voice hands out next.
    ///
    /// # Errors
    ///
    /// [`NoSuchVoice`](Refusal::NoSuchVoice).
    #[inline]
    pub fn level(&self, voice: usize) -> Result<f32, Refusal> {
        self.compute(|state, level| raw::worfelli_struct_level(state, voice, level))
    }

    /// Whether a voice is idle.
    ///
    /// # Errors
    ///
    /// [`NoSuchVoice`](Refusal::NoSuchVoice).
    #[inline]
    pub fn is_idle(&self, voice: usize) -> Result<bool, Refusal> {
        self.read(|state, idle| raw::worfelli_struct_is_idle(state, voice, idle))
            .map(|idle| idle != 0)
    }

    /// 0 when a voice is idle, else its release's count of frames.
    ///
    /// # Errors
    ///
    /// [`NoSuchVoice`](Refusal::NoSuchVoice).
    #[inline]
    pub fn tail(&self, voice: usize) -> Result<u64, Refusal> {
        self.compute(|state, frames| raw::worfelli_struct_tail(state, voice, frames))
    }

    /// The frames until a voice's sustain, were only frames to follow; 0 when it is idle, sustains or
    /// releases.
    ///
    /// # Errors
    ///
    /// [`NoSuchVoice`](Refusal::NoSuchVoice).
    #[inline]
    pub fn lead(&self, voice: usize) -> Result<u64, Refusal> {
        self.compute(|state, frames| raw::worfelli_struct_lead(state, voice, frames))
    }

    /// Fills `out` with the next frames: `out[k * stride + v]` is voice v's level in frame k, and spare
    /// lanes are +0. A length of 0 is accepted. Where blocks are cut changes no level.
    ///
    /// # Errors
    ///
    /// [`NotWholeFrames`](Refusal::NotWholeFrames), if the output's length is no multiple of the
    /// [stride](Self::stride).
    #[inline]
    pub fn process(&mut self, out: &mut [f32]) -> Result<(), Refusal> {
        Refusal::unless_accepted(raw::process(&mut self.state, out))
    }

    /// Its bytes, to be stored or sent. A C host has them as a `worfelli_bank`.
    #[must_use]
    pub fn as_bytes(&self) -> &[u8; Self::SIZE] {
        self.state.as_bytes()
    }

    /// The bank of these bytes, which goes on as the one that they were taken of.
    ///
    /// Bytes that were damaged on the way are still some bank, though another one: calls and readings of
    /// it answer as of any other.
    ///
    /// ```
    /// use worfelli::{EnvelopeBank, EnvelopeParams, Timing};
    ///
    /// let bank = EnvelopeBank::new(3, EnvelopeParams::AMP, Timing::new(48_000.0))?;
    /// let stored: Vec<u8> = bank.as_bytes().to_vec();
    /// let restored = EnvelopeBank::from_bytes(stored.as_slice().try_into()?)?;
    /// assert_eq!(restored.voices(), 3);
    /// # Ok::<(), Box<dyn std::error::Error>>(())
    /// ```
    ///
    /// # Errors
    ///
    /// If the bank is of a version that may lay it out in another way.
    ///
    /// # Panics
    ///
    /// As [`new`](Self::new).
    pub fn from_bytes(bytes: &[u8; Self::SIZE]) -> Result<Self, OtherVersion> {
        let state = State::from_bytes(bytes);
        if (raw::BANK_SINCE..=raw::BANK_UNTIL).contains(&state.version) {
            Ok(Self { state })
        } else {
            Err(OtherVersion {
                version: state.version,
            })
        }
    }

    /// A call that may change the bank.
    fn change(&mut self, mut call: impl FnMut(&mut State) -> u32) -> Result<(), Refusal> {
        Refusal::unless_accepted(in_default_mode(|| call(&mut self.state)))
    }

    /// A reading for which the library computes: what it writes if it accepts.
    fn compute<T: Default>(
        &self,
        mut call: impl FnMut(&State, &mut T) -> u32,
    ) -> Result<T, Refusal> {
        self.read(|state, answer| in_default_mode(|| call(state, answer)))
    }

    /// A reading in the mode that the thread has. For settings, stage and idleness, as for voices and
    /// stride, the library only moves numbers and compares whole ones, which no mode changes.
    fn read<T: Default>(&self, call: impl FnOnce(&State, &mut T) -> u32) -> Result<T, Refusal> {
        let mut answer = T::default();
        Refusal::unless_accepted(call(&self.state, &mut answer))?;
        Ok(answer)
    }
}

/// The meaning of codes that the library answered. A library of this crate's version answers no others.
fn known<T>(meaning: Option<T>) -> T {
    meaning.expect("libworfelli.a answers the codes of its header alone")
}

/// How many voices there are, and the stages of those that sound.
impl fmt::Debug for EnvelopeBank {
    fn fmt(&self, f: &mut fmt::Formatter<'_>) -> fmt::Result {
        let sounding = Sounding { bank: self };
        f.debug_struct("EnvelopeBank")
            .field("voices", &self.voices())
            .field("sounding", &sounding)
            .finish()
    }
}

/// The voices that are not idle, each with its stage.
struct Sounding<'a> {
    bank: &'a EnvelopeBank,
}

impl fmt::Debug for Sounding<'_> {
    fn fmt(&self, f: &mut fmt::Formatter<'_>) -> fmt::Result {
        let stages =
            (0..self.bank.voices()).filter_map(|voice| Some((voice, self.bank.stage(voice).ok()?)));
        f.debug_map()
            .entries(stages.filter(|&(_, stage)| stage != Stage::Idle))
            .finish()
    }
}

/// The bytes are a bank of another version than this crate's.
#[derive(Clone, Copy, Debug, PartialEq, Eq, Hash)]
pub struct OtherVersion {
    /// The version that they name.
    pub version: u32,
}

impl fmt::Display for OtherVersion {
    fn fmt(&self, f: &mut fmt::Formatter<'_>) -> fmt::Result {
        let Self { version } = self;
        write!(
            f,
            "a bank of version {version}, not of version {}",
            raw::VERSION
        )
    }
}

impl Error for OtherVersion {}
