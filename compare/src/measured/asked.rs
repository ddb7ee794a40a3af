//! What is asked of a bank that is measured: the sound of its voices, and the
//! kinds of calls and of readings, by the numbers that live/loops.c has for them.

use crate::rust::envelope::{EnvelopeParams, Timing, Trigger};

/// The Rust's AMP with this attack, decay and sustain, and a sample rate.
#[derive(Clone, Copy, Debug)]
pub struct Sound {
    pub sample_rate: f64,
    pub attack: f32,
    pub decay: f32,
    pub sustain: f32,
}

impl Sound {
    #[must_use]
    pub fn settings(self) -> EnvelopeParams {
        EnvelopeParams {
            attack: self.attack,
            decay: self.decay,
            sustain: self.sustain,
            ..EnvelopeParams::AMP
        }
    }

    /// The settings of the kinds of calls that change them.
    #[must_use]
    pub fn other_settings(self) -> EnvelopeParams {
        EnvelopeParams {
            sustain: 0.0,
            ..self.settings()
        }
    }

    #[must_use]
    pub fn timing(self) -> Timing {
        Timing::new(self.sample_rate)
    }

    /// The timing of the kinds of calls that change it.
    #[must_use]
    pub fn other_timing(self) -> Timing {
        self.timing().with_scale(0.5)
    }
}

/// Calls of one kind on the voices in turn.
#[derive(Clone, Copy, Debug, PartialEq, Eq)]
pub enum Kind {
    /// A new note.
    Trigger = 0,
    /// A new note and its release.
    Release = 1,
    /// The settings that the voice has.
    Settings = 2,
    /// Other settings, and then those.
    OtherSettings = 3,
    Reset = 4,
    Retrigger = 5,
    Legato = 6,
    /// A join of the next voice.
    Join = 7,
    /// The settings that they have, for all voices.
    AllSettings = 8,
    /// Other settings, and then those, for all voices.
    AllOtherSettings = 9,
    /// The timing that it has.
    Timing = 10,
    /// Half of every time, and then that timing.
    OtherTiming = 11,
}

impl Kind {
    /// Whether each call is for all voices.
    #[must_use]
    pub fn is_for_all(self) -> bool {
        matches!(
            self,
            Self::AllSettings | Self::AllOtherSettings | Self::Timing | Self::OtherTiming
        )
    }
}

/// Every kind of calls.
pub const KINDS: [Kind; 12] = [
    Kind::Trigger,
    Kind::Release,
    Kind::Settings,
    Kind::OtherSettings,
    Kind::Reset,
    Kind::Retrigger,
    Kind::Legato,
    Kind::Join,
    Kind::AllSettings,
    Kind::AllOtherSettings,
    Kind::Timing,
    Kind::OtherTiming,
];

/// A chord of so many voices.
#[derive(Clone, Copy, Debug)]
pub struct Chord {
    pub trigger: Trigger,
    pub voices: usize,
}

impl Chord {
    /// What each of its voices gets, as calls of their own.
    #[must_use]
    pub fn kind(self) -> Kind {
        match self.trigger {
            Trigger::New => Kind::Trigger,
            Trigger::Retrigger => Kind::Retrigger,
            Trigger::Legato => Kind::Legato,
        }
    }
}

/// A reading, as a number: of settings the bits of their decay.
#[derive(Clone, Copy, Debug, PartialEq, Eq)]
pub enum Query {
    Params = 0,
    Stage = 1,
    Level = 2,
    Idle = 3,
    Tail = 4,
    Lead = 5,
    Voices = 6,
    Stride = 7,
}

/// Every reading.
pub const QUERIES: [Query; 8] = [
    Query::Params,
    Query::Stage,
    Query::Level,
    Query::Idle,
    Query::Tail,
    Query::Lead,
    Query::Voices,
    Query::Stride,
];

/// The most voices of a bank.
pub const VOICES: usize = 64;

/// A fresh bank of so many voices, and new notes on them in turn.
#[derive(Clone, Copy, Debug)]
pub struct Opening {
    pub sound: Sound,
    pub voices: usize,
    pub notes: u32,
}
