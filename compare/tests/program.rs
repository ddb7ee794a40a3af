//! The program `play` prints what document 01 says: its block for the sample,
//! a refusal with its place, `too long`, and the lines of lists with no voice,
//! with no frame and with several voices.

use std::io::Write;
use std::path::Path;
use std::process::{Command, Stdio};

use compare::players::records::Event;
use compare::rust::envelope::{EnvelopeParams, Timing, Trigger};

/// Document 01's sample list.
const SAMPLE: &[u8] = include_bytes!("../../examples/sample.list");

/// The most bytes of a list.
const MOST: usize = 16_384;

/// What `play` prints for a list.
fn printed(list: &[u8]) -> String {
    let program = Path::new(env!("CARGO_MANIFEST_DIR")).join("../crates/play/out/play");
    let mut child = Command::new(&program)
        .stdin(Stdio::piped())
        .stdout(Stdio::piped())
        .spawn()
        .unwrap_or_else(|error| {
            panic!("{}: {error}: run rt run in crates/play", program.display())
        });
    let mut input = child.stdin.take().expect("its input is a pipe");
    input.write_all(list).expect("it reads its whole input");
    drop(input);
    let output = child.wait_with_output().expect("it ends");
    String::from_utf8(output.stdout).expect("it prints text")
}

fn open(voices: u8) -> Vec<u8> {
    Event::Open(voices, Timing::new(1000.0), EnvelopeParams::AMP).record()
}

#[test]
fn sample() {
    let block = "0 00000000\n1 00000000\n2 00000000\n3 3e800000\n4 3f000000\n\
                 5 3f400000\n6 3f800000\n7 3f800000\n8 3f400000\n9 3f000000\n";
    assert_eq!(printed(SAMPLE), block);
}

#[test]
fn refusals() {
    assert_eq!(printed(&[]), "refused 9 at 0\n");
    assert_eq!(printed(&SAMPLE[..86]), "refused 6 at 80\n");
    let full = [open(64), Event::Frames(256).record()].concat();
    assert_eq!(printed(&full).lines().count(), 256);
    let one_more = [full, Event::Frames(1).record()].concat();
    assert_eq!(printed(&one_more), "refused 11 at 82\n");
}

#[test]
fn longest() {
    // Frames of 0 fill the list up to its last byte: 7 bytes each, and releases of 4.
    let mut list = open(1);
    while list.len() < MOST && (MOST - list.len()) % 7 != 0 {
        list.extend(Event::Release(0).record());
    }
    while list.len() < MOST {
        list.extend(Event::Frames(0).record());
    }
    assert_eq!(list.len(), MOST);
    assert_eq!(printed(&list), "");
    list.push(0);
    assert_eq!(printed(&list), "too long\n");
}

#[test]
fn voices() {
    let frames = Event::Frames(2).record();
    assert_eq!(printed(&[open(0), frames.clone()].concat()), "0\n1\n");
    assert_eq!(printed(&open(3)), "");
    let note = Event::Trigger(16, Trigger::New).record();
    let levels = printed(&[open(17), note, frames].concat());
    let silent = " 00000000".repeat(16);
    assert_eq!(levels, format!("0{silent} 00000000\n1{silent} 3f800000\n"));
}
