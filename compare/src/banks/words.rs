//! The words of a reading by subject, for whoever holds one against the
//! Rust's.

use std::iter;

use crate::banks::calls::READING;
use crate::calls::FIELDS;

/// The subjects of readings.
pub const SUBJECTS: [&str; 8] = [
    "settings", "stage", "is_idle", "level", "tail", "lead", "voices", "stride",
];

/// The words of a reading after the settings': the subject of each, and its
/// name within that.
const WORDS: [(&str, &str); 16] = [
    ("stage", ""),
    ("is_idle", ""),
    ("level", ""),
    ("tail", "lower word"),
    ("tail", "higher word"),
    ("lead", "lower word"),
    ("lead", "higher word"),
    ("stage", "refusal"),
    ("is_idle", "refusal"),
    ("level", "refusal"),
    ("tail", "refusal"),
    ("lead", "refusal"),
    ("voices", "lower word"),
    ("voices", "higher word"),
    ("stride", "lower word"),
    ("stride", "higher word"),
];

/// Where the words of lead stand in a reading.
const LEAD: usize = 20;

/// The subject and name of each word of a reading.
pub fn words() -> impl Iterator<Item = (&'static str, &'static str)> {
    let settings = FIELDS.into_iter().map(|field| ("settings", field));
    let refusal = iter::once(("settings", "refusal"));
    refusal.chain(settings).chain(WORDS)
}

/// The place of a subject among [`SUBJECTS`].
#[must_use]
pub fn place(name: &str) -> usize {
    let at = SUBJECTS.iter().position(|subject| *subject == name);
    at.unwrap_or(0)
}

/// How many words each subject has.
#[must_use]
pub fn counts() -> [usize; SUBJECTS.len()] {
    SUBJECTS.map(|subject| words().filter(|(of, _)| *of == subject).count())
}

/// How a word is named where it differs.
#[must_use]
pub fn named(subject: &str, word: &str) -> String {
    match word {
        "" => subject.into(),
        _ => format!("{subject} {word}"),
    }
}

#[must_use]
pub fn word_at(bytes: &[u8; READING], at: usize) -> u32 {
    u32::from_le_bytes(std::array::from_fn(|byte| bytes[4 * at + byte]))
}

/// The lead that a reading tells.
#[must_use]
pub fn lead(bytes: &[u8; READING]) -> u64 {
    u64::from(word_at(bytes, LEAD)) | u64::from(word_at(bytes, LEAD + 1)) << 32
}

#[cfg(test)]
mod tests {
    use super::*;

    #[test]
    fn every_word_has_a_subject() {
        assert_eq!(words().count(), READING / 4);
        assert_eq!(counts(), [15, 2, 2, 2, 3, 3, 2, 2]);
        for (at, subject) in SUBJECTS.into_iter().enumerate() {
            assert_eq!(place(subject), at);
            assert!(words().any(|(of, _)| of == subject), "{subject}");
        }
        assert!(words().all(|(subject, _)| SUBJECTS.contains(&subject)));
    }

    #[test]
    fn the_lead_stands_after_the_tail() {
        let mut words = words().enumerate();
        let first = words.find(|(_, (subject, _))| *subject == "lead");
        assert_eq!(first, Some((LEAD, ("lead", "lower word"))));
    }
}
