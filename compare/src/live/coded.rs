//! The calls that carry codes, with any numbers in the codes' places, as only
//! C can make them.

use crate::banks::calls::Call;
use crate::calls::{Settings, kind};
use crate::random::Random;
use crate::rust::envelope::Timing;

/// The refusal of a code that means nothing.
pub const UNNAMED: u32 = 10;

/// The names of the calls that carry codes, in their order.
pub const NAMES: [&str; 5] = ["open", "settings", "settings for all", "trigger", "chord"];

/// The names of the codes of settings, in their order.
pub const CODES: [&str; 3] = ["unit", "legato inverted", "restart"];

/// The least number that is no kind of trigger, and the least that is none of
/// the settings' codes.
const NO_KIND: u32 = 3;
const NO_CODE: u32 = 2;

/// Numbers that mean nothing at all.
const NOTHING: [u32; 3] = [3, 255, u32::MAX];

/// Such whose lower bits alone would be a code.
const LOWER_BITS: [u32; 7] = [256, 257, 65_536, 65_537, 65_538, 1 << 31, (1 << 31) + 1];

/// A call whose codes are numbers.
#[derive(Clone, Debug)]
pub enum Coded {
    Open(u64, Settings, Timing),
    Settings(u64, Settings),
    SettingsForAll(Settings),
    Trigger(u64, u32),
    Chord(Vec<u64>, u32),
}

impl Coded {
    /// `call`, if it carries codes.
    #[must_use]
    pub fn of(call: &Call) -> Option<Self> {
        Some(match call {
            Call::Open(voices, settings, timing) => Self::Open(*voices, settings.into(), *timing),
            Call::Settings(voice, settings) => Self::Settings(*voice, settings.into()),
            Call::SettingsForAll(settings) => Self::SettingsForAll(settings.into()),
            Call::Trigger(voice, trigger) => Self::Trigger(*voice, kind(*trigger).into()),
            Call::Chord(voices, trigger) => Self::Chord(voices.clone(), kind(*trigger).into()),
            _ => return None,
        })
    }

    /// Its place in [`NAMES`].
    #[must_use]
    pub fn number(&self) -> usize {
        match self {
            Self::Open(..) => 0,
            Self::Settings(..) => 1,
            Self::SettingsForAll(_) => 2,
            Self::Trigger(..) => 3,
            Self::Chord(..) => 4,
        }
    }

    /// Its codes: a trigger's kind, or those of settings in their order.
    #[must_use]
    pub fn codes(&self) -> Vec<u32> {
        match self {
            Self::Open(_, settings, _)
            | Self::Settings(_, settings)
            | Self::SettingsForAll(settings) => {
                vec![settings.unit, settings.legato_inverted, settings.restart]
            }
            Self::Trigger(_, kind) | Self::Chord(_, kind) => vec![*kind],
        }
    }

    /// Whether a code that it carries in this place means nothing.
    #[must_use]
    pub fn is_unnamed(&self, code: u32) -> bool {
        match self {
            Self::Trigger(..) | Self::Chord(..) => code >= NO_KIND,
            _ => code >= NO_CODE,
        }
    }

    /// The same call with at least one code that means nothing.
    #[must_use]
    pub fn with_unnamed(mut self, random: &mut Random) -> Self {
        match &mut self {
            Self::Open(_, settings, _)
            | Self::Settings(_, settings)
            | Self::SettingsForAll(settings) => unname(random, settings),
            Self::Trigger(_, kind) | Self::Chord(_, kind) => *kind = unnamed(random, NO_KIND),
        }
        self
    }

    /// Its name with its codes.
    #[must_use]
    pub fn shown(&self) -> String {
        let codes: Vec<String> = self.codes().iter().map(ToString::to_string).collect();
        format!("{} with codes {}", NAMES[self.number()], codes.join(", "))
    }
}

/// One of the settings' codes, now and then more of them.
fn unname(random: &mut Random, settings: &mut Settings) {
    let several = match random.below(6) {
        0 => 1 + random.below(7),
        _ => 1 << random.below(3),
    };
    let codes = [
        &mut settings.unit,
        &mut settings.legato_inverted,
        &mut settings.restart,
    ];
    for (place, code) in codes.into_iter().enumerate() {
        if several >> place & 1 == 1 {
            *code = unnamed(random, NO_CODE);
        }
    }
}

/// A number from `least` on.
fn unnamed(random: &mut Random, least: u32) -> u32 {
    match random.below(8) {
        0 | 1 => least,
        2..5 => random.choose(&NOTHING),
        5 | 6 => random.choose(&LOWER_BITS),
        _ => (random.u64_of_any_length() as u32).max(least),
    }
}

#[cfg(test)]
mod tests {
    use super::*;
    use crate::rust::envelope::{EnvelopeParams, Trigger};

    #[test]
    fn some_code_means_nothing() {
        let calls = [
            Call::Open(3, EnvelopeParams::AMP, Timing::new(1e3)),
            Call::Settings(1, EnvelopeParams::AMP),
            Call::SettingsForAll(EnvelopeParams::AMP),
            Call::Trigger(2, Trigger::Legato),
            Call::Chord(vec![2, 0], Trigger::Retrigger),
        ];
        let mut random = Random::new(1);
        for (number, call) in calls.iter().enumerate() {
            let named = Coded::of(call).unwrap();
            assert_eq!(named.number(), number);
            assert!(!named.codes().iter().any(|code| named.is_unnamed(*code)));
            for _ in 0..200 {
                let unnamed = named.clone().with_unnamed(&mut random);
                let codes = unnamed.codes();
                assert!(codes.iter().any(|code| unnamed.is_unnamed(*code)));
            }
        }
        assert!(Coded::of(&Call::Release(0)).is_none());
    }
}
