//! The bytes of one record, written and read (docs/FORMAT.md).

use crate::{EnvelopeParams, Event, Refusal, Timing, Trigger};

/// The lengths of the bodies of tags 1 to 9.
const LENGTHS: [u16; 9] = [72, 48, 47, 24, 2, 1, 1, 2, 4];

/// The length of a tag's body, if there is such a tag.
fn length_of(tag: u8) -> Option<u16> {
    LENGTHS.get(usize::from(tag).checked_sub(1)?).copied()
}

/// Adds an event's record to bytes.
pub(crate) fn write(bytes: &mut Vec<u8>, event: Event) {
    match event {
        Event::Open {
            voices,
            timing,
            params,
        } => {
            head(bytes, 1, &[voices]);
            write_timing(bytes, timing);
            write_params(bytes, &params);
        }
        Event::Settings { voice, params } => {
            head(bytes, 2, &[voice]);
            write_params(bytes, &params);
        }
        Event::SettingsForAll(params) => {
            head(bytes, 3, &[]);
            write_params(bytes, &params);
        }
        Event::Timing(timing) => {
            head(bytes, 4, &[]);
            write_timing(bytes, timing);
        }
        Event::Trigger { voice, trigger } => head(bytes, 5, &[voice, trigger as u8]),
        Event::Release(voice) => head(bytes, 6, &[voice]),
        Event::Reset(voice) => head(bytes, 7, &[voice]),
        Event::Join { voice, from } => head(bytes, 8, &[voice, from]),
        Event::Frames(count) => head(bytes, 9, &count.to_le_bytes()),
    }
}

/// A record's head, with the length of the whole body, and the body's first bytes.
fn head(bytes: &mut Vec<u8>, tag: u8, body: &[u8]) {
    bytes.push(tag);
    bytes.extend(LENGTHS[usize::from(tag) - 1].to_le_bytes());
    bytes.extend(body);
}

fn write_timing(bytes: &mut Vec<u8>, timing: Timing) {
    let numbers = [timing.sample_rate, timing.tempo, timing.scale];
    bytes.extend(numbers.map(f64::to_le_bytes).as_flattened());
}

fn write_params(bytes: &mut Vec<u8>, params: &EnvelopeParams) {
    bytes.push(params.unit as u8);
    bytes.extend(params.numbers().map(f32::to_le_bytes).as_flattened());
    bytes.extend([params.legato_inverted.into(), params.steal_restart as u8]);
}

/// The event of the record at the beginning of bytes, and the bytes after it.
///
/// Refused by 6, 7, 8 or 10, tested in this order. The rest is for the player to test: it takes the
/// records before this one, and what a bank refuses.
pub(crate) fn read(bytes: &[u8]) -> Result<(Event, &[u8]), Refusal> {
    let (&[tag, low, high], rest) = bytes.split_first_chunk().ok_or(Refusal::CutShort)?;
    let length = u16::from_le_bytes([low, high]);
    let (body, rest) = rest
        .split_at_checked(length.into())
        .ok_or(Refusal::CutShort)?;
    if length != length_of(tag).ok_or(Refusal::UnknownTag)? {
        return Err(Refusal::WrongLength);
    }
    let event = Body { rest: body }.event(tag)?;
    Ok((event, rest))
}

/// What is still to be read of a body.
struct Body<'a> {
    rest: &'a [u8],
}

impl Body<'_> {
    fn event(&mut self, tag: u8) -> Result<Event, Refusal> {
        Ok(match tag {
            1 => Event::Open {
                voices: self.byte()?,
                timing: self.timing()?,
                params: self.params()?,
            },
            2 => Event::Settings {
                voice: self.byte()?,
                params: self.params()?,
            },
            3 => Event::SettingsForAll(self.params()?),
            4 => Event::Timing(self.timing()?),
            5 => Event::Trigger {
                voice: self.byte()?,
                trigger: Trigger::coded(self.byte()?).ok_or(Refusal::UnnamedCode)?,
            },
            6 => Event::Release(self.byte()?),
            7 => Event::Reset(self.byte()?),
            8 => Event::Join {
                voice: self.byte()?,
                from: self.byte()?,
            },
            9 => Event::Frames(u32::from_le_bytes(self.bytes()?)),
            _ => return Err(Refusal::UnknownTag),
        })
    }

    fn timing(&mut self) -> Result<Timing, Refusal> {
        let mut number = || self.bytes().map(f64::from_le_bytes);
        Ok(Timing {
            sample_rate: number()?,
            tempo: number()?,
            scale: number()?,
        })
    }

    fn params(&mut self) -> Result<EnvelopeParams, Refusal> {
        let unit = self.byte()?;
        let mut numbers = [0.0; 11];
        for number in &mut numbers {
            *number = f32::from_le_bytes(self.bytes()?);
        }
        let codes = [unit, self.byte()?, self.byte()?].map(u32::from);
        EnvelopeParams::of_parts(numbers, codes).ok_or(Refusal::UnnamedCode)
    }

    fn byte(&mut self) -> Result<u8, Refusal> {
        self.bytes().map(|[byte]| byte)
    }

    fn bytes<const N: usize>(&mut self) -> Result<[u8; N], Refusal> {
        let (bytes, rest) = self.rest.split_first_chunk().ok_or(Refusal::WrongLength)?;
        self.rest = rest;
        Ok(*bytes)
    }
}
