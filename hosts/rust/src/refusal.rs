//! What a bank's call or a list is refused by, and where in the list.

use std::error::Error;
use std::fmt;

/// What a bank's call or a list can be refused by. Later versions may know more.
///
/// A call is refused by 1 to 5 and 12, a list by all of them but 5 and 12.
#[derive(Clone, Copy, Debug, PartialEq, Eq, Hash)]
#[non_exhaustive]
pub enum Refusal {
    /// 1: more than [`MAX_VOICES`](crate::MAX_VOICES).
    TooManyVoices = 1,
    /// 2: a voice that the bank does not have.
    NoSuchVoice = 2,
    /// 3: a time over 1,048,576 milliseconds or beats.
    TimeOver = 3,
    /// 4: a sample rate over 1,048,576.
    RateOver = 4,
    /// 5: an output that is not a whole number of frames.
    NotWholeFrames = 5,
    /// 6: the bytes end before the record does.
    CutShort = 6,
    /// 7: a tag that no record has.
    UnknownTag = 7,
    /// 8: a length other than the tag's.
    WrongLength = 8,
    /// 9: the first record is not open, or a later one is; an empty list.
    MisplacedOpen = 9,
    /// 10: a unit, kind of trigger, legato or restart byte with no meaning.
    UnnamedCode = 10,
    /// 11: more levels than the output holds.
    OutputTooShort = 11,
    /// 12: a chord that names a voice twice, or has over [`MAX_VOICES`](crate::MAX_VOICES) entries.
    NotAChord = 12,
}

impl Refusal {
    const ALL: [Self; 12] = [
        Self::TooManyVoices,
        Self::NoSuchVoice,
        Self::TimeOver,
        Self::RateOver,
        Self::NotWholeFrames,
        Self::CutShort,
        Self::UnknownTag,
        Self::WrongLength,
        Self::MisplacedOpen,
        Self::UnnamedCode,
        Self::OutputTooShort,
        Self::NotAChord,
    ];

    /// Its number, as in docs/FORMAT.md.
    #[must_use]
    pub const fn number(self) -> u8 {
        self as u8
    }

    /// The refusal of a number that the library answered.
    #[cold]
    pub(crate) fn numbered(number: u64) -> Self {
        let known = Self::ALL
            .into_iter()
            .find(|refusal| u64::from(refusal.number()) == number);
        known.unwrap_or_else(|| {
            panic!(
                "libworfelli.a refuses by {number}, which this version of worfelli does not know"
            )
        })
    }

    /// The answer of a bank's call, whose number is 0 if it was accepted.
    #[inline]
    pub(crate) fn unless_accepted(number: u32) -> Result<(), Self> {
        if number == 0 {
            Ok(())
        } else {
            Err(Self::numbered(number.into()))
        }
    }
}

impl fmt::Display for Refusal {
    fn fmt(&self, f: &mut fmt::Formatter<'_>) -> fmt::Result {
        f.write_str(match self {
            Self::TooManyVoices => "over 64 voices",
            Self::NoSuchVoice => "no such voice",
            Self::TimeOver => "a time over 1048576",
            Self::RateOver => "a sample rate over 1048576",
            Self::NotWholeFrames => "levels that are no whole number of frames",
            Self::CutShort => "the bytes end before the record does",
            Self::UnknownTag => "an unknown tag",
            Self::WrongLength => "a wrong length",
            Self::MisplacedOpen => "a list is opened once, by its first record",
            Self::UnnamedCode => "a code with no meaning",
            Self::OutputTooShort => "more levels than the output holds",
            Self::NotAChord => "a chord that names a voice twice or has over 64 entries",
        })
    }
}

impl Error for Refusal {}

/// A list is refused: by what, and where.
#[derive(Clone, Copy, Debug, PartialEq, Eq, Hash)]
pub struct Refused {
    /// By what.
    pub refusal: Refusal,
    /// The first byte of the refused record.
    pub at: usize,
}

impl fmt::Display for Refused {
    fn fmt(&self, f: &mut fmt::Formatter<'_>) -> fmt::Result {
        let Self { refusal, at } = self;
        write!(f, "refused {} at byte {at}: {refusal}", refusal.number())
    }
}

impl Error for Refused {}

#[cfg(test)]
mod tests {
    use super::Refusal;

    #[test]
    fn known_numbers() {
        for refusal in Refusal::ALL {
            assert_eq!(Refusal::numbered(refusal.number().into()), refusal);
        }
    }

    #[test]
    #[should_panic(expected = "refuses by 13, which")]
    fn unknown_number() {
        let _ = Refusal::numbered(13);
    }
}
