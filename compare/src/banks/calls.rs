//! The calls on a bank that `replay` is asked and its answers, with the bytes
//! of both, numbers little-endian.
//!
//! A call has the bytes of an envelope's, with voices' numbers at 72..80 and
//! 80..88 and an output's length in levels at 1..5. A chord has the number of
//! its entries at 72..80, and these follow it, eight bytes each. The answer is
//! the refusal, one word; after a process all of the output, whether it was
//! written or not. The answer to readings is 31 words: an envelope's reply, its
//! refusal being that of the settings' reading; the refusals of stage, idle,
//! level, tail and lead; `voices` and `stride`, two words each with the lower
//! first.

use crate::calls::{CALL, REPLY, Reply, Settings, kind, settings_bytes, timing_bytes};
use crate::rust::envelope::{EnvelopeParams, Timing, Trigger};

/// The longest output that may be asked for, in levels.
pub const LONGEST: u32 = 262_144;

/// The most entries of a chord that may be asked for.
pub const MOST_ENTRIES: usize = 128;

/// The bytes of the answer to readings, and the words after the reply.
pub const READING: usize = REPLY + 4 * REST;
const REST: usize = 9;

/// One call on the bank. Voices' numbers come first.
#[derive(Clone, Debug)]
pub enum Call {
    Open(u64, EnvelopeParams, Timing),
    Settings(u64, EnvelopeParams),
    SettingsForAll(EnvelopeParams),
    Timing(Timing),
    Trigger(u64, Trigger),
    Release(u64),
    Reset(u64),
    Join(u64, u64),
    /// An output of so many levels, at most [`LONGEST`].
    Process(u32),
    /// All readings of a voice.
    Read(u64),
    /// One kind of trigger for each of these voices, at most [`MOST_ENTRIES`].
    Chord(Vec<u64>, Trigger),
}

/// The tags of an opening and of a chord. Those of the other calls follow the
/// opening's.
const OPEN: u8 = 9;
const CHORD: u8 = 22;

/// The names of the calls, in the order of their tags.
pub const NAMES: [&str; 11] = [
    "open",
    "settings",
    "settings for all",
    "timing",
    "trigger",
    "release",
    "reset",
    "join",
    "process",
    "readings",
    "chord",
];

impl Call {
    /// Its place in [`NAMES`].
    #[must_use]
    pub fn number(&self) -> usize {
        match self {
            Self::Open(..) => 0,
            Self::Settings(..) => 1,
            Self::SettingsForAll(_) => 2,
            Self::Timing(_) => 3,
            Self::Trigger(..) => 4,
            Self::Release(_) => 5,
            Self::Reset(_) => 6,
            Self::Join(..) => 7,
            Self::Process(_) => 8,
            Self::Read(_) => 9,
            Self::Chord(..) => 10,
        }
    }

    /// Its name with its whole numbers.
    #[must_use]
    pub fn shown(&self) -> String {
        let name = NAMES[self.number()];
        match self {
            Self::Open(voice, ..)
            | Self::Settings(voice, _)
            | Self::Trigger(voice, _)
            | Self::Release(voice)
            | Self::Reset(voice)
            | Self::Read(voice) => format!("{name} {voice}"),
            Self::Join(voice, from) => format!("{name} {voice} from {from}"),
            Self::Process(levels) => format!("{name} {levels}"),
            Self::Chord(voices, _) => format!("{name} {voices:?}"),
            Self::SettingsForAll(_) | Self::Timing(_) => name.into(),
        }
    }

    /// The length of its output.
    #[must_use]
    pub fn levels(&self) -> usize {
        match self {
            Self::Process(levels) => *levels as usize,
            _ => 0,
        }
    }

    /// Its bytes, with the entries of a chord.
    #[must_use]
    pub fn bytes(&self) -> Vec<u8> {
        let mut bytes = self.head().to_vec();
        if let Self::Chord(voices, _) = self {
            bytes.extend(voices.iter().flat_map(|voice| voice.to_le_bytes()));
        }
        bytes
    }

    /// Its bytes but the entries of a chord.
    fn head(&self) -> [u8; CALL] {
        let mut bytes = [0; CALL];
        bytes[0] = match self {
            Self::Chord(..) => CHORD,
            _ => OPEN + self.number() as u8,
        };
        let (voice, from) = self.voices();
        bytes[72..80].copy_from_slice(&voice.to_le_bytes());
        bytes[80..].copy_from_slice(&from.to_le_bytes());
        match self {
            Self::Open(_, settings, timing) => {
                bytes[1..48].copy_from_slice(&settings_bytes(settings));
                bytes[48..72].copy_from_slice(&timing_bytes(timing));
            }
            Self::Settings(_, settings) | Self::SettingsForAll(settings) => {
                bytes[1..48].copy_from_slice(&settings_bytes(settings));
            }
            Self::Timing(timing) => bytes[48..72].copy_from_slice(&timing_bytes(timing)),
            Self::Trigger(_, trigger) | Self::Chord(_, trigger) => bytes[1] = kind(*trigger),
            Self::Process(levels) => bytes[1..5].copy_from_slice(&levels.to_le_bytes()),
            Self::Release(_) | Self::Reset(_) | Self::Join(..) | Self::Read(_) => {}
        }
        bytes
    }

    /// The two voices' numbers, 0 for one that it doesn't name; of a chord how
    /// many entries it has.
    fn voices(&self) -> (u64, u64) {
        match *self {
            Self::Open(voice, ..)
            | Self::Settings(voice, _)
            | Self::Trigger(voice, _)
            | Self::Release(voice)
            | Self::Reset(voice)
            | Self::Read(voice) => (voice, 0),
            Self::Join(voice, from) => (voice, from),
            Self::Chord(ref voices, _) => (voices.len() as u64, 0),
            Self::SettingsForAll(_) | Self::Timing(_) | Self::Process(_) => (0, 0),
        }
    }
}

/// What the output holds before a process: from 2 up, which no envelope hands
/// out, and by the place.
#[must_use]
pub fn before(place: usize) -> f32 {
    f32::from_bits(0x4000_0000 + place as u32)
}

/// All readings of a voice.
#[derive(Clone, Copy, Debug)]
pub struct Reading {
    /// Its refusal is that of the settings' reading.
    pub reply: Reply,
    /// Those of stage, idle, level, tail and lead.
    pub refusals: [u32; 5],
    pub voices: u64,
    pub stride: u64,
}

impl Reading {
    /// What a voice replies.
    #[must_use]
    pub fn of(reply: Reply, voices: u64, stride: u64) -> Self {
        Self {
            reply,
            refusals: [reply.refusal; 5],
            voices,
            stride,
        }
    }

    /// The reply where `refusal` answers every reading.
    #[must_use]
    pub fn refused(refusal: u32, voices: u64, stride: u64) -> Self {
        let reply = Reply {
            refusal,
            settings: Settings::from(&EnvelopeParams::AMP),
            stage: 0,
            idle: 0,
            level: 0.0,
            tail: 0,
            lead: 0,
        };
        Self::of(reply, voices, stride)
    }

    /// Its bytes, with every NaN as the one that leaves the Rattle.
    #[must_use]
    pub fn bytes(&self) -> [u8; READING] {
        let mut words = [0; REST];
        words[..5].copy_from_slice(&self.refusals);
        for (at, number) in [(5, self.voices), (7, self.stride)] {
            words[at] = number as u32;
            words[at + 1] = (number >> 32) as u32;
        }
        let mut bytes = [0; READING];
        bytes[..REPLY].copy_from_slice(&self.reply.bytes());
        for (to, word) in bytes[REPLY..].chunks_exact_mut(4).zip(words) {
            to.copy_from_slice(&word.to_le_bytes());
        }
        bytes
    }
}

#[cfg(test)]
mod tests {
    use super::*;

    #[test]
    fn a_call_stands_where_the_protocol_has_it() {
        let bytes = Call::Join(258, u64::MAX).bytes();
        assert_eq!(bytes[0], 16);
        assert_eq!(bytes[1..72], [0; 71]);
        assert_eq!(bytes[72..80], [2, 1, 0, 0, 0, 0, 0, 0]);
        assert_eq!(bytes[80..], [255; 8]);
        let open = Call::Open(65, EnvelopeParams::AMP, Timing::new(48_000.0)).bytes();
        assert_eq!(open[0], 9);
        assert_eq!(open[6..10], 1.0_f32.to_le_bytes(), "attack");
        assert_eq!(open[48..56], 48_000.0_f64.to_le_bytes(), "rate");
        assert_eq!(open[72..74], [65, 0]);
        assert_eq!(Call::Trigger(3, Trigger::Legato).bytes()[..2], [13, 2]);
        assert_eq!(Call::Process(LONGEST).bytes()[..5], [17, 0, 0, 4, 0]);
        assert_eq!(Call::Read(7).bytes()[0], 18);
    }

    #[test]
    fn the_entries_of_a_chord_follow_it() {
        let bytes = Call::Chord(vec![258, u64::MAX], Trigger::Retrigger).bytes();
        assert_eq!(bytes[..3], [22, 1, 0]);
        assert_eq!(
            bytes[72..CALL],
            [2, 0, 0, 0, 0, 0, 0, 0, 0, 0, 0, 0, 0, 0, 0, 0]
        );
        assert_eq!(bytes[CALL..CALL + 8], [2, 1, 0, 0, 0, 0, 0, 0]);
        assert_eq!(bytes[CALL + 8..], [255; 8]);
        let none = Call::Chord(Vec::new(), Trigger::Legato);
        assert_eq!(none.bytes().len(), CALL);
        assert_eq!(none.shown(), "chord []");
    }

    #[test]
    fn a_reading_has_each_refusal() {
        let reading = Reading::refused(2, 17, 32);
        let bytes = reading.bytes();
        assert_eq!(bytes[0], 2);
        assert_eq!(bytes[REPLY..REPLY + 8], [2, 0, 0, 0, 2, 0, 0, 0]);
        assert_eq!(bytes[READING - 16..READING - 8], [17, 0, 0, 0, 0, 0, 0, 0]);
        assert_eq!(bytes[READING - 8..], [32, 0, 0, 0, 0, 0, 0, 0]);
    }
}
