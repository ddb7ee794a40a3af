//! The nine kinds of events of a list and the bytes of their records, as
//! document 01 has them: a tag, a length of two bytes and a body, numbers
//! little-endian.

use crate::calls::{kind, settings_bytes, timing_bytes};
use crate::rust::envelope::{EnvelopeParams, StealRestart, TimeUnit, Timing, Trigger};

/// The bytes of a record before its body.
pub const HEAD: usize = 3;

/// The tags that are spoken of.
pub const OPEN: u8 = 1;
pub const SETTINGS: u8 = 2;
pub const SETTINGS_FOR_ALL: u8 = 3;
pub const TIMING: u8 = 4;
pub const TRIGGER: u8 = 5;
pub const RELEASE: u8 = 6;
pub const RESET: u8 = 7;
pub const JOIN: u8 = 8;
pub const FRAMES: u8 = 9;

/// The names of the records and the lengths of their bodies, in the order of
/// their tags, which begin with 1.
pub const RECORDS: [(&str, usize); 9] = [
    ("open", 72),
    ("settings", 48),
    ("settings for all", 47),
    ("timing", 24),
    ("trigger", 2),
    ("release", 1),
    ("reset", 1),
    ("join", 2),
    ("frames", 4),
];

/// The length of the body of a record with this tag.
#[must_use]
pub fn length(tag: u8) -> Option<usize> {
    let number = usize::from(tag).checked_sub(1)?;
    RECORDS.get(number).map(|(_, length)| *length)
}

/// Where settings begin in the body of a record with this tag.
#[must_use]
pub fn settings_at(tag: u8) -> Option<usize> {
    match tag {
        OPEN => Some(25),
        SETTINGS => Some(1),
        SETTINGS_FOR_ALL => Some(0),
        _ => None,
    }
}

/// Where timing begins in the body of a record with this tag.
#[must_use]
pub fn timing_at(tag: u8) -> Option<usize> {
    match tag {
        OPEN => Some(1),
        TIMING => Some(0),
        _ => None,
    }
}

/// One event.
#[derive(Clone, Copy, Debug)]
pub enum Event {
    Open(u8, Timing, EnvelopeParams),
    Settings(u8, EnvelopeParams),
    SettingsForAll(EnvelopeParams),
    Timing(Timing),
    Trigger(u8, Trigger),
    Release(u8),
    Reset(u8),
    Join(u8, u8),
    Frames(u32),
}

impl Event {
    #[must_use]
    pub fn tag(&self) -> u8 {
        match self {
            Self::Open(..) => OPEN,
            Self::Settings(..) => SETTINGS,
            Self::SettingsForAll(_) => SETTINGS_FOR_ALL,
            Self::Timing(_) => TIMING,
            Self::Trigger(..) => TRIGGER,
            Self::Release(_) => RELEASE,
            Self::Reset(_) => RESET,
            Self::Join(..) => JOIN,
            Self::Frames(_) => FRAMES,
        }
    }

    fn body(&self) -> Vec<u8> {
        match *self {
            Self::Open(voices, timing, settings) => {
                let mut body = vec![voices];
                body.extend(timing_bytes(&timing));
                body.extend(settings_bytes(&settings));
                body
            }
            Self::Settings(voice, settings) => {
                let mut body = vec![voice];
                body.extend(settings_bytes(&settings));
                body
            }
            Self::SettingsForAll(settings) => settings_bytes(&settings).to_vec(),
            Self::Timing(timing) => timing_bytes(&timing).to_vec(),
            Self::Trigger(voice, trigger) => vec![voice, kind(trigger)],
            Self::Release(voice) | Self::Reset(voice) => vec![voice],
            Self::Join(voice, from) => vec![voice, from],
            Self::Frames(count) => count.to_le_bytes().to_vec(),
        }
    }

    /// Its record.
    #[must_use]
    pub fn record(&self) -> Vec<u8> {
        record(self.tag(), &self.body())
    }

    /// The event of a tag and a body of that tag's length, or none if a code
    /// byte has no name.
    #[must_use]
    #[inline]
    pub fn read(tag: u8, body: &[u8]) -> Option<Self> {
        Some(match tag {
            OPEN => Self::Open(body[0], timing(&body[1..]), settings(&body[25..])?),
            SETTINGS => Self::Settings(body[0], settings(&body[1..])?),
            SETTINGS_FOR_ALL => Self::SettingsForAll(settings(body)?),
            TIMING => Self::Timing(timing(body)),
            TRIGGER => Self::Trigger(body[0], trigger(body[1])?),
            RELEASE => Self::Release(body[0]),
            RESET => Self::Reset(body[0]),
            JOIN => Self::Join(body[0], body[1]),
            _ => Self::Frames(u32::from_le_bytes(bytes(body, 0))),
        })
    }
}

/// A record of any tag and body, its length as it is.
#[must_use]
pub fn record(tag: u8, body: &[u8]) -> Vec<u8> {
    let mut record = vec![tag];
    record.extend((body.len() as u16).to_le_bytes());
    record.extend(body);
    record
}

/// The records of a list, from its first to the last that fits.
pub fn records(list: &[u8]) -> impl Iterator<Item = (u8, &[u8])> {
    let mut rest = list;
    std::iter::from_fn(move || {
        let (tag, body) = first(rest)?;
        rest = &rest[HEAD + body.len()..];
        Some((tag, body))
    })
}

/// The tag and the body of the first record, or none if it doesn't fit.
#[must_use]
#[inline]
pub fn first(rest: &[u8]) -> Option<(u8, &[u8])> {
    let (head, after) = rest.split_first_chunk::<HEAD>()?;
    let length = usize::from(u16::from_le_bytes([head[1], head[2]]));
    Some((head[0], after.get(..length)?))
}

/// So many bytes from `at` on.
fn bytes<const N: usize>(body: &[u8], at: usize) -> [u8; N] {
    std::array::from_fn(|byte| body[at + byte])
}

fn timing(bytes_of: &[u8]) -> Timing {
    let number = |at: usize| f64::from_le_bytes(bytes(bytes_of, 8 * at));
    Timing {
        sample_rate: number(0),
        tempo: number(1),
        scale: number(2),
    }
}

fn settings(bytes_of: &[u8]) -> Option<EnvelopeParams> {
    let number = |at: usize| f32::from_le_bytes(bytes(bytes_of, 1 + 4 * at));
    Some(EnvelopeParams {
        unit: if code(bytes_of[0])? {
            TimeUnit::Tempo
        } else {
            TimeUnit::Milliseconds
        },
        delay: number(0),
        attack: number(1),
        hold: number(2),
        decay: number(3),
        sustain: number(4),
        release: number(5),
        attack_curve: number(6),
        decay_curve: number(7),
        release_curve: number(8),
        start: number(9),
        end: number(10),
        legato_inverted: code(bytes_of[45])?,
        steal_restart: if code(bytes_of[46])? {
            StealRestart::StartLevel
        } else {
            StealRestart::CurrentLevel
        },
    })
}

/// Whether a code byte is 1, or none if it is more.
fn code(byte: u8) -> Option<bool> {
    match byte {
        0 => Some(false),
        1 => Some(true),
        _ => None,
    }
}

fn trigger(kind: u8) -> Option<Trigger> {
    match kind {
        0 => Some(Trigger::New),
        1 => Some(Trigger::Retrigger),
        2 => Some(Trigger::Legato),
        _ => None,
    }
}

#[cfg(test)]
mod tests {
    use super::*;
    use crate::fixed::SAMPLE;

    #[test]
    fn each_is_read_as_it_was_written() {
        let timing = Timing::new(48_000.0).with_tempo(90.5);
        let events = [
            Event::Open(64, timing, SAMPLE),
            Event::Settings(3, EnvelopeParams::AMP),
            Event::SettingsForAll(SAMPLE),
            Event::Timing(timing),
            Event::Trigger(2, Trigger::Legato),
            Event::Release(4),
            Event::Reset(5),
            Event::Join(6, 7),
            Event::Frames(0x0102_0304),
        ];
        for (number, event) in (1..).zip(events) {
            let bytes = event.record();
            let (tag, body) = first(&bytes).unwrap();
            assert_eq!(tag, number);
            assert_eq!(Some(body.len()), length(tag));
            assert_eq!(Event::read(tag, body).unwrap().record(), bytes);
        }
    }

    #[test]
    fn codes_without_a_name() {
        for tag in [OPEN, SETTINGS, SETTINGS_FOR_ALL] {
            let at = settings_at(tag).unwrap();
            for code in [at, at + 45, at + 46] {
                let mut body = vec![0; length(tag).unwrap()];
                body[code] = 1;
                assert!(Event::read(tag, &body).is_some());
                body[code] = 2;
                assert!(Event::read(tag, &body).is_none());
            }
        }
        assert!(Event::read(TRIGGER, &[0, 2]).is_some());
        assert!(Event::read(TRIGGER, &[0, 3]).is_none());
    }

    #[test]
    fn the_records_that_fit() {
        let mut list = Event::Release(4).record();
        list.extend(Event::Frames(1).record());
        list.extend([9, 4, 0, 1]);
        let tags: Vec<u8> = records(&list).map(|(tag, _)| tag).collect();
        assert_eq!(tags, [RELEASE, FRAMES]);
    }
}
