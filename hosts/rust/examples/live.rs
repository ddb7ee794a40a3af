//! A live host: key events come in on standard input, blocks of levels go out on standard output.
//!
//! An event is a line: `FRAME down KEY..`, `FRAME up KEY..`, and as the last one `FRAME end`. FRAME counts from
//! 0 and never falls; KEY, 0 to 15, is a voice. Keys that go down together are a chord, which one call triggers
//! anew; an up releases each of its keys. Empty lines, and lines that begin with #, are skipped. A level is a
//! binary32, lowest byte first, and a frame is 16 of them.
//!
//! A block is at most 64 frames and is cut at an event, so that each event is exact to the frame. The exit
//! status is 0, or 2 where something went wrong. That is said in one line on standard error, and the
//! levels before it have been written.

use std::io::{self, BufRead, BufWriter, Write};
use std::process::ExitCode;

use worfelli::{EnvelopeBank, EnvelopeParams, Refusal, Timing, Trigger};

const KEYS: usize = 16;
const BLOCK: usize = 64;

enum Action {
    Down(Vec<usize>),
    Up(Vec<usize>),
    End,
}

fn main() -> ExitCode {
    match take(io::stdin().lock(), BufWriter::new(io::stdout().lock())) {
        Ok(()) => ExitCode::SUCCESS,
        Err(message) => {
            eprintln!("live: {message}");
            ExitCode::from(2)
        }
    }
}

/// Plays the key events of `input` into `output`.
pub(crate) fn take(input: impl BufRead, mut output: impl Write) -> Result<(), String> {
    let mut bank = open().map_err(refused)?;
    let (mut now, mut ended, mut lines) = (0, false, 0);
    for line in input.split(b'\n') {
        lines += 1;
        let line = line.map_err(|error| format!("standard input: {error}"))?;
        let line = String::from_utf8_lossy(&line);
        if line.starts_with('#') || line.trim_ascii().is_empty() {
            continue;
        }
        let wrong = |expected: String| format!("line {lines}: expected {expected}");
        if ended {
            return Err(wrong("nothing after FRAME end".into()));
        }
        let (frame, action) = parse(&line, now).map_err(wrong)?;
        play(&mut bank, frame - now, &mut output)?;
        now = frame;
        match action {
            Action::Down(keys) => bank.chord(&keys, Trigger::New).map_err(refused)?,
            Action::Up(keys) => release(&mut bank, &keys).map_err(refused)?,
            Action::End => ended = true,
        }
    }
    if ended {
        return Ok(());
    }
    let after = lines + 1;
    Err(format!(
        "line {after}: expected FRAME end before the input ends"
    ))
}

fn open() -> Result<EnvelopeBank, Refusal> {
    let params = EnvelopeParams {
        attack: 10.0,
        decay: 200.0,
        sustain: 0.6,
        release: 120.0,
        ..EnvelopeParams::AMP
    };
    EnvelopeBank::new(KEYS, params, Timing::new(48_000.0))
}

fn release(bank: &mut EnvelopeBank, keys: &[usize]) -> Result<(), Refusal> {
    keys.iter().try_for_each(|&key| bank.release(key))
}

/// The block loop. Where a sound card asks for blocks, its callback calls `process` and turns the levels
/// into sound.
fn play(bank: &mut EnvelopeBank, mut frames: u64, output: &mut impl Write) -> Result<(), String> {
    let unwritten = |error: io::Error| format!("standard output: {error}");
    let mut block = [0.0; BLOCK * KEYS];
    while frames > 0 {
        let now = usize::try_from(frames).map_or(BLOCK, |frames| frames.min(BLOCK));
        let levels = &mut block[..now * KEYS];
        bank.process(levels).map_err(refused)?;
        for level in levels {
            output.write_all(&level.to_le_bytes()).map_err(unwritten)?;
        }
        // Each block goes out as soon as it is there.
        output.flush().map_err(unwritten)?;
        frames -= now as u64;
    }
    Ok(())
}

fn refused(refusal: Refusal) -> String {
    format!("refused {}: {refusal}", refusal.number())
}

/// The event of a line, from frame `now` on. The error is what was expected.
fn parse(line: &str, now: u64) -> Result<(u64, Action), String> {
    let mut words = line.split_ascii_whitespace();
    let frame = words.next().and_then(number);
    let frame = frame.ok_or("FRAME, a number, then down, up or end")?;
    if frame < now {
        return Err(format!("a frame from {now} on"));
    }
    let action = match words.next() {
        Some("down") => Action::Down(keys(&mut words)?),
        Some("up") => Action::Up(keys(&mut words)?),
        Some("end") => Action::End,
        _ => return Err("down, up or end after the frame".into()),
    };
    match words.next() {
        None => Ok((frame, action)),
        Some(_) => Err("nothing after end".into()),
    }
}

/// The last words of a line, its keys.
fn keys<'a>(words: impl Iterator<Item = &'a str>) -> Result<Vec<usize>, String> {
    let keys: Option<Vec<usize>> = words.map(key).collect();
    keys.filter(|keys| (1..=KEYS).contains(&keys.len()))
        .ok_or_else(|| "1 to 16 keys, each from 0 to 15".into())
}

fn key(word: &str) -> Option<usize> {
    let key = usize::try_from(number(word)?).ok()?;
    (key < KEYS).then_some(key)
}

/// A number of digits alone, where `parse` would take a plus sign too.
fn number(word: &str) -> Option<u64> {
    let digits = word.bytes().all(|byte| byte.is_ascii_digit());
    if digits { word.parse().ok() } else { None }
}
