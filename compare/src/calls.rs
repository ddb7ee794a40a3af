//! The calls that `replay` is asked and its replies, with the bytes of both,
//! numbers little-endian. The levels that a call writes follow its reply, four
//! bytes each.
//!
//! A call, 88 bytes: byte 0 its tag, 1..48 settings S or a trigger's kind or a
//! 32-bit count of frames, 48..72 timing T, 72..80 a note's frames, the rest
//! only the bank's; what it doesn't use is 0. A reply, 22 words of 32 bits: the refusal, the settings'
//! 14 fields in their order, the stage, whether idle, the level, then tail and
//! lead, two words each with the lower first. S and T are document 01's.

use crate::report::Bits;
use crate::rust::envelope::{EnvelopeParams, Stage, StealRestart, TimeUnit, Timing, Trigger};

/// The bytes of a call.
pub const CALL: usize = 88;

/// The words of a reply, and its bytes.
const WORDS: usize = 22;
pub const REPLY: usize = 4 * WORDS;

/// The longest block that may be asked for, in frames.
pub const LONGEST: u32 = 65_536;

/// The stages by their numbers.
pub const STAGES: [Stage; 7] = [
    Stage::Idle,
    Stage::Delay,
    Stage::Attack,
    Stage::Hold,
    Stage::Decay,
    Stage::Sustain,
    Stage::Release,
];

/// The kinds of triggers by their numbers.
pub const TRIGGERS: [Trigger; 3] = [Trigger::New, Trigger::Retrigger, Trigger::Legato];

/// The number of `stage`.
#[must_use]
pub fn stage_number(stage: Stage) -> u32 {
    match stage {
        Stage::Idle => 0,
        Stage::Delay => 1,
        Stage::Attack => 2,
        Stage::Hold => 3,
        Stage::Decay => 4,
        Stage::Sustain => 5,
        Stage::Release => 6,
    }
}

/// One call on the envelope.
#[derive(Clone, Copy, Debug)]
pub enum Call {
    Fresh(EnvelopeParams, Timing),
    Settings(EnvelopeParams),
    Timing(Timing),
    Trigger(Trigger),
    Release,
    Reset,
    /// One block of so many frames, at most [`LONGEST`].
    Process(u32),
    NextLevel,
    /// Its calls in a row, on an envelope that is lent to them.
    Note(Note),
}

/// A trigger after a reset, so many frames with the key down, at most
/// [`LONGEST`], new settings and timing, one frame more and the release.
#[derive(Clone, Copy, Debug)]
pub struct Note {
    pub trigger: Trigger,
    pub frames: u32,
    pub settings: EnvelopeParams,
    pub timing: Timing,
}

impl Note {
    /// Its calls, in their order.
    #[must_use]
    pub fn calls(&self) -> [Call; 7] {
        [
            Call::Reset,
            Call::Trigger(self.trigger),
            Call::Process(self.frames),
            Call::Settings(self.settings),
            Call::Timing(self.timing),
            Call::NextLevel,
            Call::Release,
        ]
    }
}

/// The tag of a note with a new trigger; those of the other kinds follow.
const NOTE: u8 = 19;

/// The names of the calls, in the order of their numbers.
pub const NAMES: [&str; 9] = [
    "fresh",
    "settings",
    "timing",
    "trigger",
    "release",
    "reset",
    "process",
    "next_level",
    "note",
];

impl Call {
    /// Which of [`NAMES`] it has.
    #[must_use]
    pub fn number(&self) -> usize {
        match self {
            Self::Note(_) => NAMES.len() - 1,
            _ => usize::from(self.tag()) - 1,
        }
    }

    #[must_use]
    pub fn tag(&self) -> u8 {
        match self {
            Self::Fresh(..) => 1,
            Self::Settings(_) => 2,
            Self::Timing(_) => 3,
            Self::Trigger(_) => 4,
            Self::Release => 5,
            Self::Reset => 6,
            Self::Process(_) => 7,
            Self::NextLevel => 8,
            Self::Note(note) => NOTE + kind(note.trigger),
        }
    }

    #[must_use]
    pub fn name(&self) -> &'static str {
        NAMES[self.number()]
    }

    /// How many levels it writes.
    #[must_use]
    pub fn levels(&self) -> usize {
        match self {
            Self::Process(frames) => *frames as usize,
            Self::NextLevel => 1,
            Self::Note(note) => note.frames as usize + 1,
            _ => 0,
        }
    }

    #[must_use]
    pub fn bytes(&self) -> [u8; CALL] {
        let mut bytes = [0; CALL];
        bytes[0] = self.tag();
        match self {
            Self::Fresh(settings, timing) => {
                bytes[1..48].copy_from_slice(&settings_bytes(settings));
                bytes[48..72].copy_from_slice(&timing_bytes(timing));
            }
            Self::Settings(settings) => {
                bytes[1..48].copy_from_slice(&settings_bytes(settings));
            }
            Self::Timing(timing) => bytes[48..72].copy_from_slice(&timing_bytes(timing)),
            Self::Trigger(trigger) => bytes[1] = kind(*trigger),
            Self::Process(frames) => bytes[1..5].copy_from_slice(&frames.to_le_bytes()),
            Self::Release | Self::Reset | Self::NextLevel => {}
            Self::Note(note) => {
                bytes[1..48].copy_from_slice(&settings_bytes(&note.settings));
                bytes[48..72].copy_from_slice(&timing_bytes(&note.timing));
                bytes[72..80].copy_from_slice(&u64::from(note.frames).to_le_bytes());
            }
        }
        bytes
    }
}

/// The number of a trigger's kind.
#[must_use]
pub fn kind(trigger: Trigger) -> u8 {
    match trigger {
        Trigger::New => 0,
        Trigger::Retrigger => 1,
        Trigger::Legato => 2,
    }
}

/// The timing T of a call.
#[must_use]
pub fn timing_bytes(timing: &Timing) -> [u8; 24] {
    let mut bytes = [0; 24];
    let numbers = [timing.sample_rate, timing.tempo, timing.scale];
    for (to, number) in bytes.chunks_exact_mut(8).zip(numbers) {
        to.copy_from_slice(&number.to_bits().to_le_bytes());
    }
    bytes
}

/// Settings as they travel, and as C has them. The codes are numbers as they
/// came, since a reply may hold any.
#[repr(C)]
#[derive(Clone, Copy, Debug, PartialEq)]
pub struct Settings {
    pub unit: u32,
    pub numbers: [f32; 11],
    pub legato_inverted: u32,
    pub restart: u32,
}

impl From<&EnvelopeParams> for Settings {
    fn from(p: &EnvelopeParams) -> Self {
        Self {
            unit: match p.unit {
                TimeUnit::Milliseconds => 0,
                TimeUnit::Tempo => 1,
            },
            numbers: [
                p.delay,
                p.attack,
                p.hold,
                p.decay,
                p.sustain,
                p.release,
                p.attack_curve,
                p.decay_curve,
                p.release_curve,
                p.start,
                p.end,
            ],
            legato_inverted: p.legato_inverted.into(),
            restart: match p.steal_restart {
                StealRestart::CurrentLevel => 0,
                StealRestart::StartLevel => 1,
            },
        }
    }
}

/// The names of the settings' fields, in their order.
pub const FIELDS: [&str; 14] = [
    "unit",
    "delay",
    "attack",
    "hold",
    "decay",
    "sustain",
    "release",
    "attack_curve",
    "decay_curve",
    "release_curve",
    "start",
    "end",
    "legato inverted",
    "restart",
];

impl Settings {
    /// Its fields in their order, with every NaN as the one that leaves the
    /// Rattle.
    #[must_use]
    pub fn words(&self) -> [u32; FIELDS.len()] {
        let mut words = [self.unit; FIELDS.len()];
        words[1..12].copy_from_slice(&self.numbers.map(|number| number.compared() as u32));
        words[12..].copy_from_slice(&[self.legato_inverted, self.restart]);
        words
    }
}

/// The settings S of a call.
#[must_use]
pub fn settings_bytes(p: &EnvelopeParams) -> [u8; 47] {
    let settings = Settings::from(p);
    let mut bytes = [0; 47];
    bytes[0] = settings.unit as u8;
    for (to, number) in bytes[1..45].chunks_exact_mut(4).zip(settings.numbers) {
        to.copy_from_slice(&number.to_bits().to_le_bytes());
    }
    bytes[45] = settings.legato_inverted as u8;
    bytes[46] = settings.restart as u8;
    bytes
}

/// What is said after each call, about the envelope as the call left it.
#[derive(Clone, Copy, Debug)]
pub struct Reply {
    /// The refusal's number, 0 if the call was accepted.
    pub refusal: u32,
    pub settings: Settings,
    pub stage: u32,
    pub idle: u32,
    pub level: f32,
    pub tail: u64,
    pub lead: u64,
}

impl Reply {
    /// Its bytes, with every NaN as the one that leaves the Rattle.
    #[must_use]
    pub fn bytes(&self) -> [u8; REPLY] {
        let mut words = [0; WORDS];
        words[0] = self.refusal;
        words[1..15].copy_from_slice(&self.settings.words());
        words[15] = self.stage;
        words[16] = self.idle;
        words[17] = self.level.compared() as u32;
        words[18..20].copy_from_slice(&[self.tail as u32, (self.tail >> 32) as u32]);
        words[20..].copy_from_slice(&[self.lead as u32, (self.lead >> 32) as u32]);
        let mut bytes = [0; REPLY];
        for (to, word) in bytes.chunks_exact_mut(4).zip(words) {
            to.copy_from_slice(&word.to_le_bytes());
        }
        bytes
    }

    #[must_use]
    pub fn from_bytes(bytes: &[u8; REPLY]) -> Self {
        let word = |at: usize| u32::from_le_bytes(std::array::from_fn(|byte| bytes[4 * at + byte]));
        let number = |at: usize| f32::from_bits(word(at));
        let long = |at: usize| u64::from(word(at)) | u64::from(word(at + 1)) << 32;
        Self {
            refusal: word(0),
            settings: Settings {
                unit: word(1),
                numbers: std::array::from_fn(|at| number(2 + at)),
                legato_inverted: word(13),
                restart: word(14),
            },
            stage: word(15),
            idle: word(16),
            level: number(17),
            tail: long(18),
            lead: long(20),
        }
    }
}

#[cfg(test)]
mod tests {
    use super::*;

    const SIGNALLING: u32 = 0x7f80_0001;

    fn settings() -> EnvelopeParams {
        EnvelopeParams {
            unit: TimeUnit::Tempo,
            start: f32::from_bits(SIGNALLING),
            end: -0.0,
            legato_inverted: true,
            steal_restart: StealRestart::StartLevel,
            ..EnvelopeParams::AMP
        }
    }

    #[test]
    fn a_call_stands_where_the_protocol_has_it() {
        let timing = Timing::new(48_000.0).with_scale(2.0);
        let bytes = Call::Fresh(settings(), timing).bytes();
        assert_eq!(bytes[..2], [1, 1]);
        assert_eq!(bytes[2..6], [0; 4], "delay");
        assert_eq!(bytes[6..10], 1.0_f32.to_le_bytes(), "attack");
        assert_eq!(bytes[38..42], SIGNALLING.to_le_bytes(), "start as given");
        assert_eq!(bytes[42..48], [0, 0, 0, 0x80, 1, 1], "end and the codes");
        assert_eq!(bytes[48..56], 48_000.0_f64.to_le_bytes(), "rate");
        assert_eq!(bytes[64..72], 2.0_f64.to_le_bytes(), "scale");
        assert_eq!(bytes[72..], [0; 16], "no voices");
        assert_eq!(Call::Trigger(Trigger::Legato).bytes()[..3], [4, 2, 0]);
        assert_eq!(Call::Process(LONGEST).bytes()[..6], [7, 0, 0, 1, 0, 0]);
        let note = Call::Note(Note {
            trigger: Trigger::Legato,
            frames: LONGEST,
            settings: settings(),
            timing,
        });
        let bytes = note.bytes();
        assert_eq!((bytes[0], note.name()), (21, "note"));
        assert_eq!(
            bytes[72..],
            [0, 0, 1, 0, 0, 0, 0, 0, 0, 0, 0, 0, 0, 0, 0, 0]
        );
        assert_eq!(bytes[1..72], Call::Fresh(settings(), timing).bytes()[1..72]);
    }

    #[test]
    fn a_reply_comes_back_with_one_nan() {
        let reply = Reply {
            refusal: 3,
            settings: Settings::from(&settings()),
            stage: stage_number(Stage::Release),
            idle: 0,
            level: f32::from_bits(0x8000_0001),
            tail: 0x0102_0304_0506_0708,
            lead: 9,
        };
        let bytes = reply.bytes();
        assert_eq!(bytes[44..48], 0x7fc0_0000_u32.to_le_bytes(), "start");
        assert_eq!(bytes[60..72], [6, 0, 0, 0, 0, 0, 0, 0, 1, 0, 0, 0x80]);
        assert_eq!(bytes[72..81], [8, 7, 6, 5, 4, 3, 2, 1, 9]);
        assert_eq!(Reply::from_bytes(&bytes).bytes(), bytes);
    }

    #[test]
    fn stages_stand_by_their_numbers() {
        for (number, stage) in STAGES.into_iter().enumerate() {
            assert_eq!(stage_number(stage) as usize, number);
        }
    }
}
