//! Events, and the list that they make.

use std::iter::FusedIterator;

use crate::{EnvelopeParams, Refusal, Refused, Timing, Trigger, raw, record, stride_of};

/// A record of a list. Only [`Frames`](Self::Frames) takes time; the others act from the next frame on.
/// Later versions may have more.
///
/// Voices are counted from 0.
#[derive(Clone, Copy, Debug, PartialEq)]
#[non_exhaustive]
pub enum Event {
    /// A bank of idle voices. A list begins with it, and has it nowhere else.
    Open {
        /// How many, up to [`MAX_VOICES`](crate::MAX_VOICES).
        voices: u8,
        /// The bank's timing.
        timing: Timing,
        /// Every voice's settings.
        params: EnvelopeParams,
    },
    /// New settings for a voice.
    Settings {
        /// Which voice.
        voice: u8,
        /// Its settings from now on.
        params: EnvelopeParams,
    },
    /// New settings for every voice.
    SettingsForAll(EnvelopeParams),
    /// A new timing for the bank.
    Timing(Timing),
    /// A note starts.
    Trigger {
        /// On which voice.
        voice: u8,
        /// How.
        trigger: Trigger,
    },
    /// The note of a voice ends.
    Release(u8),
    /// A voice is idle at once, at its end level.
    Reset(u8),
    /// A voice becomes a copy of another, settings included.
    Join {
        /// The voice that changes.
        voice: u8,
        /// The one that it copies.
        from: u8,
    },
    /// So many frames of all voices are written.
    Frames(u32),
}

/// An event list: the bytes of docs/FORMAT.md, one record after the other.
///
/// It is always a whole number of records, each with its tag, its length and codes that have a meaning.
/// Numbers are kept as they are, bit by bit. Whether they make sense, and the records together, is for
/// the player to say. Adding events allocates, so build lists off the audio thread.
#[derive(Clone, Debug, Default, PartialEq, Eq, Hash)]
pub struct List {
    bytes: Vec<u8>,
}

impl List {
    /// A list of no event. The player refuses it as long as it has none.
    #[must_use]
    pub const fn new() -> Self {
        Self { bytes: Vec::new() }
    }

    /// The list of these bytes. No bytes are a list of no event.
    ///
    /// ```
    /// use worfelli::{Event, List, Refusal};
    ///
    /// let list = List::from_bytes([6, 1, 0, 3])?;
    /// assert_eq!(list.iter().next(), Some(Event::Release(3)));
    ///
    /// let refused = List::from_bytes([6, 1, 0, 3, 6, 1]).unwrap_err();
    /// assert_eq!((refused.refusal, refused.at), (Refusal::CutShort, 4));
    /// # Ok::<(), worfelli::Refused>(())
    /// ```
    ///
    /// # Errors
    ///
    /// The first record that is none, by 6, 7, 8 or 10 in the order of docs/FORMAT.md. The other
    /// refusals are the player's alone: [`frames`](Self::frames) tells them without playing.
    pub fn from_bytes(bytes: impl Into<Vec<u8>>) -> Result<Self, Refused> {
        let bytes = bytes.into();
        let mut rest = bytes.as_slice();
        while !rest.is_empty() {
            let (_, after) = record::read(rest).map_err(|refusal| Refused {
                refusal,
                at: bytes.len() - rest.len(),
            })?;
            rest = after;
        }
        Ok(Self { bytes })
    }

    /// Its bytes, to be played.
    #[must_use]
    pub fn as_bytes(&self) -> &[u8] {
        &self.bytes
    }

    /// Its events in their order.
    #[must_use]
    pub fn iter(&self) -> Events<'_> {
        Events { rest: &self.bytes }
    }

    /// Adds an event at the end.
    pub fn push(&mut self, event: Event) {
        record::write(&mut self.bytes, event);
    }

    /// How many frames it has.
    ///
    /// # Errors
    ///
    /// What refuses the list however long the output is, so by all but 11, and where.
    ///
    /// # Panics
    ///
    /// As [`play`](crate::play).
    pub fn frames(&self) -> Result<u64, Refused> {
        self.info().map(|(_, frames)| frames)
    }

    /// How many voices its bank has.
    ///
    /// # Errors
    ///
    /// As [`frames`](Self::frames).
    ///
    /// # Panics
    ///
    /// As [`play`](crate::play).
    pub fn voices(&self) -> Result<usize, Refused> {
        self.info().map(|(voices, _)| voices)
    }

    /// How many levels it writes, which is what an output has to hold: its frames times their
    /// [stride](crate::stride), or `usize::MAX` where that is more.
    ///
    /// # Errors
    ///
    /// As [`frames`](Self::frames).
    ///
    /// # Panics
    ///
    /// As [`play`](crate::play).
    pub fn levels(&self) -> Result<usize, Refused> {
        let (voices, frames) = self.info()?;
        let frames = usize::try_from(frames).unwrap_or(usize::MAX);
        Ok(frames.saturating_mul(stride_of(voices)))
    }

    fn info(&self) -> Result<(usize, u64), Refused> {
        raw::list_info(&self.bytes).map_err(|number| Refused {
            refusal: Refusal::numbered(number.into()),
            at: raw::refused_at(&self.bytes, usize::MAX),
        })
    }
}

impl AsRef<[u8]> for List {
    fn as_ref(&self) -> &[u8] {
        &self.bytes
    }
}

impl Extend<Event> for List {
    fn extend<I: IntoIterator<Item = Event>>(&mut self, events: I) {
        events.into_iter().for_each(|event| self.push(event));
    }
}

impl FromIterator<Event> for List {
    fn from_iter<I: IntoIterator<Item = Event>>(events: I) -> Self {
        let mut list = Self::new();
        list.extend(events);
        list
    }
}

impl<const N: usize> From<[Event; N]> for List {
    fn from(events: [Event; N]) -> Self {
        events.into_iter().collect()
    }
}

impl<'a> IntoIterator for &'a List {
    type Item = Event;
    type IntoIter = Events<'a>;

    fn into_iter(self) -> Events<'a> {
        self.iter()
    }
}

/// The events of a [`List`] in their order, by [`List::iter`].
#[derive(Clone, Debug)]
pub struct Events<'a> {
    rest: &'a [u8],
}

impl Iterator for Events<'_> {
    type Item = Event;

    fn next(&mut self) -> Option<Event> {
        if self.rest.is_empty() {
            return None;
        }
        let (event, rest) = record::read(self.rest).expect("a list is whole records");
        self.rest = rest;
        Some(event)
    }
}

impl FusedIterator for Events<'_> {}
