//! The files `stdin` and `stdout` of the program that plays lists wherever
//! there is no Rust: the short fixed lists, and the reference's answers.
//!
//! A case of `stdin`: the list's length and the output's, four bytes each, and
//! the list. A case of `stdout`: the result and the place, eight bytes each,
//! and the output's bytes after the call, each of which was its place's
//! remainder by 251 before. Numbers are little-endian.

use std::fs;
use std::path::Path;

use crate::players::{Case, before, fixed, reference};
use crate::program::FILES;

/// The longest list and output that the program takes.
const LONGEST_LIST: usize = 16_384;
const LONGEST_OUTPUT: usize = 65_536;

/// The program's folder, seen from this package's.
const FOLDER: &str = "../crates/replay_lists";

/// Both files.
struct Stored {
    stdin: Vec<u8>,
    stdout: Vec<u8>,
}

/// The bytes of both files.
///
/// # Errors
///
/// A list doesn't show what it is about. The message is one line.
pub fn files() -> Result<[Vec<u8>; 2], String> {
    stored().map(|stored| [stored.stdin, stored.stdout])
}

/// Whether both files in the repository are what would be written.
///
/// # Errors
///
/// One of them isn't. The message is one line.
pub fn compare() -> Result<(), String> {
    let folder = Path::new(env!("CARGO_MANIFEST_DIR")).join(FOLDER);
    for (name, bytes) in FILES.into_iter().zip(files()?) {
        let file = folder.join(name);
        let found = fs::read(&file).map_err(|error| format!("{}: {error}", file.display()))?;
        if found != bytes {
            let shown = file.display();
            return Err(format!("{shown} is not what --write writes"));
        }
    }
    Ok(())
}

fn stored() -> Result<Stored, String> {
    let mut stored = Stored {
        stdin: Vec::new(),
        stdout: Vec::new(),
    };
    for case in fixed::cases()? {
        if case.list.len() <= LONGEST_LIST && case.out_len <= LONGEST_OUTPUT {
            stored.add(&case);
        }
    }
    Ok(stored)
}

impl Stored {
    fn add(&mut self, case: &Case) {
        for length in [case.list.len(), case.out_len] {
            self.stdin.extend((length as u32).to_le_bytes());
        }
        self.stdin.extend(&case.list);
        let mut out: Vec<u8> = (0..case.out_len).map(before).collect();
        let result = reference::play(&case.list, &mut out);
        let place = reference::refused_at(&case.list, case.out_len);
        self.stdout.extend(result.to_le_bytes());
        self.stdout.extend(place.to_le_bytes());
        self.stdout.extend(out);
    }
}

#[cfg(test)]
mod tests {
    use super::*;

    #[test]
    fn the_files_are_what_would_be_written() {
        assert_eq!(compare(), Ok(()));
    }

    #[test]
    fn begins_with_the_sample_and_stays_small() {
        let stored = stored().unwrap();
        // Open, trigger and frames: 75, 5 and 7 bytes.
        assert_eq!(stored.stdin[..9], [87, 0, 0, 0, 128, 2, 0, 0, 1]);
        assert_eq!(stored.stdout[..8], 10_i64.to_le_bytes());
        assert_eq!(stored.stdout[8..16], 87_u64.to_le_bytes());
        assert!(stored.stdin.len() + stored.stdout.len() < 300_000);
    }
}
