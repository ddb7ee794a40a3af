//! Plays a chord of three notes, released one after the other, and prints a frame of it every 5 ms.

use worfelli::{EnvelopeParams, Event, List, Refused, Timing, Trigger, play_levels, stride};

const VOICES: u8 = 3;
const RATE: f64 = 48_000.0;
const FIVE_MS: u32 = 240;

fn main() -> Result<(), Refused> {
    let params = EnvelopeParams {
        attack: 10.0,
        decay: 30.0,
        sustain: 0.6,
        ..EnvelopeParams::AMP
    };
    let mut list = List::from([Event::Open {
        voices: VOICES,
        timing: Timing::new(RATE),
        params,
    }]);
    list.extend((0..VOICES).map(|voice| Event::Trigger {
        voice,
        trigger: Trigger::New,
    }));
    list.push(Event::Frames(8 * FIVE_MS));
    list.extend((0..VOICES).flat_map(|voice| [Event::Release(voice), Event::Frames(FIVE_MS)]));

    let mut levels = vec![0.0; list.levels()?];
    let frames = play_levels(list.as_bytes(), &mut levels)?;

    println!("{frames} frames\n frame  voice 0  voice 1  voice 2");
    let rows = levels.chunks(stride(VOICES)).enumerate();
    for (frame, row) in rows.step_by(FIVE_MS as usize) {
        println!("{frame:6}  {:7.5}  {:7.5}  {:7.5}", row[0], row[1], row[2]);
    }
    Ok(())
}
