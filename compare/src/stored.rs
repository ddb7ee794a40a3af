//! The files `stdin` and `stdout` that the program is run on wherever there is
//! no Rust: the calls of the short fixed lists, and the Rust's answers.

use crate::banks;
use crate::fixed;
use crate::lists::List;
use crate::replay::Asked;

/// A fixed list of the envelope is short if its calls and answers take at most
/// so many bytes.
const SHORT: usize = 32_768;

/// The same of the bank, whose frames are at least 64 bytes long.
const SHORT_BANK: usize = 12_288;

/// Calls, and the answers to them.
#[derive(Default)]
struct Stored {
    calls: Vec<u8>,
    replies: Vec<u8>,
}

impl Stored {
    /// A list's calls and answers, if they take at most `short` bytes. Answers
    /// whether they do.
    fn add(&mut self, calls: &[u8], replies: &[u8], short: usize) -> bool {
        let fits = calls.len() + replies.len() <= short;
        if fits {
            self.calls.extend(calls);
            self.replies.extend(replies);
        }
        fits
    }
}

/// The bytes of both files.
///
/// # Errors
///
/// A list doesn't show what it is about. The message is one line.
pub fn files() -> Result<[Vec<u8>; 2], String> {
    stored().map(|stored| [stored.calls, stored.replies])
}

fn stored() -> Result<Stored, String> {
    let mut stored = Stored::default();
    for list in fixed::lists()? {
        if stored.add(&list.call_bytes(), &list.reply_bytes(), SHORT) {
            given_by_running_on(&list)?;
        }
    }
    for list in banks::fixed::lists()? {
        if stored.add(&list.call_bytes(), &list.reply_bytes(), SHORT_BANK) {
            given_by_histories(&list)?;
        }
    }
    Ok(stored)
}

/// Whether every lead of `list` is the one that running on gives.
fn given_by_running_on(list: &List) -> Result<(), String> {
    let given = |step: &crate::lists::Step| step.run_on == Some(step.reply.lead);
    if list.steps.iter().all(given) {
        Ok(())
    } else {
        Err(format!(
            "{}: a lead is not what running on gives",
            list.name
        ))
    }
}

/// Whether every answer of `list` is the one that the histories give.
fn given_by_histories(list: &banks::lists::List) -> Result<(), String> {
    let readings = list.steps.iter().filter_map(|step| step.readings);
    let given = readings
        .into_iter()
        .all(|readings| readings.bank.bytes() == readings.history.bytes());
    let bits =
        |levels: &[f32]| -> Vec<u32> { levels.iter().map(|level| level.to_bits()).collect() };
    let bank = bits(&list.levels.bank);
    let levels = bank == bits(&list.levels.histories) && bank == bits(&list.levels.again);
    if given && levels {
        Ok(())
    } else {
        Err(format!(
            "{}: an answer is not what the histories give",
            list.name
        ))
    }
}

#[cfg(test)]
mod tests {
    use std::collections::BTreeSet;

    use super::*;
    use crate::calls::CALL;

    /// The tags of all calls. The entries of a chord follow it.
    fn tags(mut calls: &[u8]) -> BTreeSet<u8> {
        let mut tags = BTreeSet::new();
        while let Some((call, rest)) = calls.split_first_chunk::<CALL>() {
            let entries = if call[0] == 22 { call[72] } else { 0 };
            calls = &rest[8 * usize::from(entries)..];
            tags.insert(call[0]);
        }
        tags
    }

    #[test]
    fn holds_calls_of_both_and_stays_small() {
        let stored = stored().unwrap();
        assert_eq!(tags(&stored.calls), (1..=22).collect());
        assert!(stored.calls.len() + stored.replies.len() < 200_000);
    }
}
