//! The cases of a chord's list, each with what has to hold of the list: the
//! places where a test of it is easily got wrong.

use std::collections::HashSet;

use crate::banks::refusals::MOST;

/// How many cases there are.
pub(super) const CASES: usize = 14;

/// Each case, and whether a chord of the voices `named` is one on a bank of so
/// many voices. Of one that is refused nothing else refuses it.
pub(super) fn cases(voices: u64, named: &[u64]) -> [(&'static str, bool); CASES] {
    let (length, last) = (named.len(), named.len().saturating_sub(1));
    let places = 0..length;
    let missing: Vec<usize> = places.filter(|at| named[*at] >= voices).collect();
    let twice = repeated(named);
    let is_short = length as u64 <= MOST;
    let is_twice = is_short && !twice.is_empty();
    let is_missing = is_short && length > 2 && twice.is_empty() && missing.len() == 1;
    let beside = named.windows(2).any(|pair| pair[0] == pair[1]);
    let lower: Vec<u64> = named.iter().map(|voice| voice % MOST).collect();
    [
        ("0 entries", length == 0 && voices > 0),
        ("0 entries on 0 voices", length == 0 && voices == 0),
        ("1 entry", length == 1 && missing.is_empty()),
        (
            "64 entries",
            length == 64 && missing.is_empty() && !is_twice,
        ),
        ("65 entries, each once", length == 65 && twice.is_empty()),
        ("a voice twice", is_twice && missing.is_empty()),
        (
            "a voice twice, not side by side",
            is_twice && missing.is_empty() && !beside,
        ),
        (
            "a missing voice twice",
            is_twice && twice.iter().all(|voice| *voice >= voices),
        ),
        (
            "a number from 64 on twice",
            is_twice && twice.iter().all(|voice| *voice >= MOST),
        ),
        (
            "a voice twice and one missing",
            is_twice && twice.iter().all(|voice| *voice < voices) && !missing.is_empty(),
        ),
        ("the first missing", is_missing && missing == [0]),
        (
            "one between missing",
            is_missing && missing != [0] && missing != [last],
        ),
        ("the last missing", is_missing && missing == [last]),
        (
            "two numbers 64 or a multiple apart",
            is_short && twice.is_empty() && !repeated(&lower).is_empty(),
        ),
    ]
}

/// The numbers that stand in the list twice.
fn repeated(named: &[u64]) -> Vec<u64> {
    let mut seen = HashSet::new();
    let again = named.iter().filter(|voice| !seen.insert(**voice));
    again.copied().collect()
}

#[cfg(test)]
mod tests {
    use super::*;

    #[test]
    fn each_case_is_told() {
        let all: Vec<u64> = (0..64).collect();
        let over: Vec<u64> = (0..65).collect();
        let lists: [(u64, &[u64], &[&str]); 15] = [
            (3, &[], &["0 entries"]),
            (0, &[], &["0 entries on 0 voices"]),
            (3, &[2], &["1 entry"]),
            (3, &[3], &[]),
            (64, &all, &["64 entries"]),
            (63, &all, &["the last missing"]),
            (64, &over, &["65 entries, each once"]),
            (3, &[2, 2], &["a voice twice"]),
            (
                3,
                &[2, 0, 2],
                &["a voice twice", "a voice twice, not side by side"],
            ),
            (3, &[3, 3], &["a missing voice twice"]),
            (
                3,
                &[64, 64],
                &["a missing voice twice", "a number from 64 on twice"],
            ),
            (3, &[0, 3, 0], &["a voice twice and one missing"]),
            (3, &[3, 0, 1], &["the first missing"]),
            (3, &[0, 3, 1], &["one between missing"]),
            (3, &[1, 65], &["two numbers 64 or a multiple apart"]),
        ];
        for (voices, named, expected) in lists {
            let told = cases(voices, named).into_iter().filter(|(_, holds)| *holds);
            let told: Vec<&str> = told.map(|(name, _)| name).collect();
            assert_eq!(told, expected, "{named:?} on {voices}");
        }
    }
}
