//! Asks the Rattle's program `replay` lists of calls, and has its answers
//! compared.
//!
//! One thread makes the lists and writes their calls, another reads and
//! compares, so that neither side of the pipes waits for the other for ever.
//! A third one ends a program that says too little and waits for more.

use std::env;
use std::io::{self, BufReader, Read, Write};
use std::path::{Path, PathBuf};
use std::process::{Child, Command, Stdio};
use std::sync::mpsc::{Receiver, RecvTimeoutError, Sender, SyncSender, channel, sync_channel};
use std::sync::{Mutex, PoisonError};
use std::thread;
use std::time::Duration;

/// Lists that are asked ahead of the reading.
const AHEAD: usize = 256;

/// How long one list may take to be answered.
const PATIENCE: Duration = Duration::from_secs(20);

/// A list of calls that the program can be asked.
pub trait Asked: Send {
    /// The bytes that ask all of it.
    fn call_bytes(&self) -> Vec<u8>;
}

/// What holds the answers to lists of one kind against the Rust's.
pub trait Compares {
    type List: Asked;

    /// One list, its answers read from `output`.
    ///
    /// # Errors
    ///
    /// They can't be read. The message is one line.
    fn list(&mut self, list: &Self::List, output: &mut impl Read) -> Result<(), String>;
}

/// The program that is compared.
#[must_use]
pub fn program() -> PathBuf {
    match env::var_os("WORFELLI_REPLAY") {
        Some(named) => named.into(),
        None => Path::new(env!("CARGO_MANIFEST_DIR")).join("../crates/replay/out/replay"),
    }
}

/// What to say of an answer that can't be read.
#[must_use]
pub fn ending(at: &str, error: &io::Error) -> String {
    match error.kind() {
        io::ErrorKind::UnexpectedEof => format!("replay ended early, in its answer to {at}"),
        _ => format!("replay can't be read, in its answer to {at}: {error}"),
    }
}

/// All lists, and after them the end of `output`. Each list that is done is
/// told to `watch`.
fn all<C: Compares>(
    comparison: &mut C,
    lists: Receiver<C::List>,
    output: &mut impl Read,
    watch: &Sender<()>,
) -> Result<(), String> {
    for list in lists {
        comparison.list(&list, output)?;
        // Whoever watches may have given up, and then the reading ends.
        let _ = watch.send(());
    }
    match output.read(&mut [0]) {
        Ok(0) => Ok(()),
        Ok(_) => Err("replay says more than it was asked".into()),
        Err(error) => Err(format!("replay can't be read: {error}")),
    }
}

/// Asks `program` the lists and compares its answers.
///
/// # Errors
///
/// It can't be run, says too little or too much, or fails. The message is one
/// line.
pub fn compare<C: Compares>(
    program: &Path,
    lists: impl Iterator<Item = C::List> + Send,
    comparison: &mut C,
) -> Result<(), String> {
    let mut child = Command::new(program)
        .stdin(Stdio::piped())
        .stdout(Stdio::piped())
        .spawn()
        .map_err(|error| format!("{}: {error}", program.display()))?;
    let (Some(input), Some(output)) = (child.stdin.take(), child.stdout.take()) else {
        return Err("replay has no pipes".into());
    };
    let mut output = BufReader::with_capacity(1 << 16, output);
    let child = Mutex::new(child);
    let (sender, receiver) = sync_channel(AHEAD);
    let (done, answered) = channel();
    thread::scope(|scope| {
        scope.spawn(move || ask(lists, &sender, input));
        let watched = &child;
        let watcher = scope.spawn(move || watch(&answered, watched));
        let compared = all(comparison, receiver, &mut output, &done);
        drop(done);
        let in_time = watcher.join().unwrap_or(true);
        let ended = end(&child, compared);
        if in_time {
            ended
        } else {
            let stopped = format!("stopped: a list took over {} seconds", PATIENCE.as_secs());
            ended.map_err(|message| format!("{message} ({stopped})"))
        }
    })
}

/// Writes the calls of all lists. Each list goes to the reading side first:
/// what is written is then always waited for. An error means that one of the
/// other sides has ended, which is theirs to say.
fn ask<L: Asked>(lists: impl Iterator<Item = L>, sender: &SyncSender<L>, mut input: impl Write) {
    for list in lists {
        let bytes = list.call_bytes();
        if sender.send(list).is_err() || input.write_all(&bytes).is_err() {
            return;
        }
    }
}

/// Stops `child` if a list takes too long, and answers whether none did.
fn watch(lists: &Receiver<()>, child: &Mutex<Child>) -> bool {
    loop {
        match lists.recv_timeout(PATIENCE) {
            Ok(()) => {}
            Err(RecvTimeoutError::Disconnected) => return true,
            Err(RecvTimeoutError::Timeout) => {
                stop(child);
                return false;
            }
        }
    }
}

/// It may have ended already, and then there is nothing to stop.
fn stop(child: &Mutex<Child>) {
    let _ = child.lock().unwrap_or_else(PoisonError::into_inner).kill();
}

/// Waits for `child`, or stops it if it was not read to its end: whoever
/// writes to it would wait for ever.
fn end(child: &Mutex<Child>, compared: Result<(), String>) -> Result<(), String> {
    if compared.is_err() {
        stop(child);
    }
    let mut child = child.lock().unwrap_or_else(PoisonError::into_inner);
    let status = child
        .wait()
        .map_err(|error| format!("replay can't be waited for: {error}"))?;
    compared?;
    if status.success() {
        Ok(())
    } else {
        Err(format!("replay answered everything, but failed: {status}"))
    }
}

#[cfg(test)]
mod tests {
    use super::*;
    use crate::calls::Call;
    use crate::comparison::Comparison;
    use crate::lists::List;
    use crate::rust::envelope::Trigger;

    #[test]
    fn too_much_is_said() {
        let mut list = List::new("list 0".into());
        list.ask(Call::Trigger(Trigger::New), 0);
        let mut bytes = list.reply_bytes();
        bytes.push(0);
        let (sender, lists) = sync_channel(1);
        sender.send(list).unwrap();
        drop(sender);
        let mut comparison = Comparison::default();
        let message = all(&mut comparison, lists, &mut bytes.as_slice(), &channel().0);
        assert_eq!(message, Err("replay says more than it was asked".into()));
    }
}
