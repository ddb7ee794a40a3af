//! Which record of a list is refused, and by which of document 01's numbers.
//! The tests of a record stand in the order in which 01 has them.

use crate::banks::refusals::{MOST, VOICE, VOICES, stride};
use crate::players::records::{Event, HEAD, OPEN, first, length};
use crate::reference::{ACCEPTED, fresh_refusal, rate_refusal, time_refusal};

/// The refusal of a head or body that doesn't fit in the bytes.
pub const FIT: u32 = 6;
/// The refusal of an unknown tag.
pub const TAG: u32 = 7;
/// The refusal of a wrong length.
pub const LENGTH: u32 = 8;
/// The refusal of a first record that isn't open, and of a later one that is.
pub const FIRST: u32 = 9;
/// The refusal of a code byte without a name.
pub const CODE: u32 = 10;
/// The refusal of more levels than the output holds.
pub const ROOM: u32 = 11;

/// The bytes of a level.
pub const LEVEL: usize = 4;

/// A refusal's number and the first byte of the record.
#[derive(Clone, Copy, Debug, PartialEq, Eq)]
pub struct Refused {
    pub number: u32,
    pub at: usize,
}

/// The frames of a whole list, if it may be played into so many bytes.
///
/// # Errors
///
/// A record is refused.
pub fn check(list: &[u8], out_len: usize) -> Result<u64, Refused> {
    let mut checked = Checked {
        voices: None,
        frames: 0,
        room: (out_len / LEVEL) as u64,
    };
    let mut at = 0;
    while at < list.len() {
        match checked.record(&list[at..]) {
            Ok(length) => at += length,
            Err(number) => return Err(Refused { number, at }),
        }
    }
    match checked.voices {
        Some(_) => Ok(checked.frames),
        // There was no record.
        None => Err(Refused {
            number: FIRST,
            at: 0,
        }),
    }
}

/// What the records so far amount to.
struct Checked {
    /// Of the bank, once it is opened.
    voices: Option<u8>,
    frames: u64,
    /// The levels of the output.
    room: u64,
}

impl Checked {
    /// The length of the first record of `rest`, or the number that refuses it.
    #[inline]
    fn record(&mut self, rest: &[u8]) -> Result<usize, u32> {
        let (tag, body) = first(rest).ok_or(FIT)?;
        let length = length(tag).ok_or(TAG)?;
        if body.len() != length {
            return Err(LENGTH);
        }
        if (tag == OPEN) == self.voices.is_some() {
            return Err(FIRST);
        }
        let event = Event::read(tag, body).ok_or(CODE)?;
        let voices = self.voices.unwrap_or(0);
        match refusal(voices, &event) {
            ACCEPTED => {}
            number => return Err(number),
        }
        match event {
            Event::Open(voices, ..) => self.voices = Some(voices),
            Event::Frames(count) => {
                self.frames += u64::from(count);
                if self.frames * stride(voices.into()) > self.room {
                    return Err(ROOM);
                }
            }
            _ => {}
        }
        Ok(HEAD + length)
    }
}

/// The call's own refusal of an event on a bank of so many voices.
#[must_use]
#[inline]
pub fn refusal(voices: u8, event: &Event) -> u32 {
    let voice = |voice| if voice < voices { ACCEPTED } else { VOICE };
    match event {
        Event::Open(asked, ..) if u64::from(*asked) > MOST => VOICES,
        Event::Open(_, timing, settings) => fresh_refusal(settings, timing),
        Event::Settings(of, _) if *of >= voices => VOICE,
        Event::Settings(_, settings) | Event::SettingsForAll(settings) => time_refusal(settings),
        Event::Timing(timing) => rate_refusal(timing),
        Event::Trigger(of, _) | Event::Release(of) | Event::Reset(of) => voice(*of),
        Event::Join(of, from) => voice(*of.max(from)),
        Event::Frames(_) => ACCEPTED,
    }
}

#[cfg(test)]
mod tests {
    use super::*;
    use crate::fixed::{RATE_1000, SAMPLE};

    #[test]
    fn counts_are_summed_in_more_than_32_bits() {
        let mut list = Event::Open(64, RATE_1000, SAMPLE).record();
        list.extend(Event::Frames(3).record());
        let last = list.len();
        list.extend(Event::Frames(u32::MAX - 2).record());
        let refused = Err(Refused {
            number: ROOM,
            at: last,
        });
        let enough = (1 << 32) * 64 * LEVEL;
        assert_eq!(
            check(&list, 0),
            Err(Refused {
                number: ROOM,
                at: 75
            })
        );
        assert_eq!(check(&list, 1 << 20), refused);
        assert_eq!(check(&list, enough - 1), refused);
        assert_eq!(check(&list, enough), Ok(1 << 32));
        assert_eq!(check(&list, usize::MAX), Ok(1 << 32));
    }
}
