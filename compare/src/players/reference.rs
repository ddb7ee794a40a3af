//! A player of event lists over the derived Rust's bank: the list is checked,
//! then the bank opened and played, its blocks drawn into a buffer that is made
//! once and written byte by byte from there.

use crate::players::checks::{LEVEL, check};
use crate::players::records::{Event, records};
use crate::rust::envelope::EnvelopeBank;
use crate::simd::Level;

/// The levels of the buffer, which stays in the processor's nearest cache.
const BUFFER: usize = 1024;

/// Plays `list` into `out`. Answers the frames that were written, or minus the
/// refusal's number.
#[inline(never)]
pub fn play(list: &[u8], out: &mut [u8]) -> i64 {
    match check(list, out.len()) {
        Ok(frames) => {
            perform(list, out);
            frames as i64
        }
        Err(refused) => -i64::from(refused.number),
    }
}

/// The first byte of the record that is refused, or the list's length.
#[must_use]
#[inline(never)]
pub fn refused_at(list: &[u8], out_len: usize) -> u64 {
    match check(list, out_len) {
        Ok(_) => list.len() as u64,
        Err(refused) => refused.at as u64,
    }
}

/// Plays a list that was checked.
fn perform(list: &[u8], out: &mut [u8]) {
    let mut events = records(list).filter_map(|(tag, body)| Event::read(tag, body));
    let Some(Event::Open(voices, timing, settings)) = events.next() else {
        return;
    };
    let mut bank = EnvelopeBank::new(voices.into(), settings, timing);
    let mut buffer = vec![0.0; BUFFER.min(out.len() / LEVEL)];
    let mut rest = out;
    for event in events {
        match event {
            Event::Frames(count) => {
                let length = count as usize * bank.stride() * LEVEL;
                let (rows, after) = rest.split_at_mut(length);
                draw(&mut bank, &mut buffer, rows);
                rest = after;
            }
            _ => apply(&mut bank, &event),
        }
    }
}

/// An event without frames.
pub fn apply(bank: &mut EnvelopeBank, event: &Event) {
    match *event {
        Event::Open(voices, timing, settings) => {
            *bank = EnvelopeBank::new(voices.into(), settings, timing);
        }
        Event::Settings(voice, settings) => bank.set_params(voice.into(), settings),
        Event::SettingsForAll(settings) => bank.set_all_params(settings),
        Event::Timing(timing) => bank.set_timing(timing),
        Event::Trigger(voice, trigger) => bank.trigger(voice.into(), trigger),
        Event::Release(voice) => bank.release(voice.into()),
        Event::Reset(voice) => bank.reset(voice.into()),
        Event::Join(voice, from) => bank.join(voice.into(), from.into()),
        Event::Frames(_) => {}
    }
}

/// Draws as many whole frames as `rows` has bytes for.
fn draw(bank: &mut EnvelopeBank, buffer: &mut [f32], rows: &mut [u8]) {
    let most = BUFFER / bank.stride() * bank.stride() * LEVEL;
    for part in rows.chunks_mut(most) {
        let levels = &mut buffer[..part.len() / LEVEL];
        let drawn = bank.process_at(Level::Portable, levels);
        assert!(drawn, "the portable level is not there");
        for (to, level) in part.chunks_exact_mut(LEVEL).zip(levels) {
            to.copy_from_slice(&level.to_le_bytes());
        }
    }
}
