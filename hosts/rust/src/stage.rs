//! The stages of an envelope.

/// Where a voice is.
///
/// A note goes through [`Delay`](Self::Delay), [`Attack`](Self::Attack), [`Hold`](Self::Hold) and
/// [`Decay`](Self::Decay) to [`Sustain`](Self::Sustain), and after its end through
/// [`Release`](Self::Release) to [`Idle`](Self::Idle). A stage that takes no time is skipped.
#[derive(Clone, Copy, Debug, PartialEq, Eq, PartialOrd, Ord, Hash)]
pub enum Stage {
    /// No note: the voice is at its end level.
    Idle = 0,
    /// At the level with which the note begins.
    Delay = 1,
    /// The rise to 1.
    Attack = 2,
    /// At 1.
    Hold = 3,
    /// The fall to the sustain level.
    Decay = 4,
    /// At the sustain level, until the note's end.
    Sustain = 5,
    /// The way to the end level.
    Release = 6,
}

impl Stage {
    /// The stage of a code, as the library has it.
    #[inline]
    pub(crate) const fn coded(code: u32) -> Option<Self> {
        match code {
            0 => Some(Self::Idle),
            1 => Some(Self::Delay),
            2 => Some(Self::Attack),
            3 => Some(Self::Hold),
            4 => Some(Self::Decay),
            5 => Some(Self::Sustain),
            6 => Some(Self::Release),
            _ => None,
        }
    }
}
