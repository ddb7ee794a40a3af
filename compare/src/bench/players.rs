//! Event lists beside a player over the Rust's bank: long takes, short lists
//! that are mostly events, the check alone, and the stack.

use std::hint::black_box;

use compare::banks::refusals;
use compare::library;
use compare::players::records::{Event, records};
use compare::players::reference;
use compare::program::SEED;
use compare::random::Random;
use compare::rust::envelope::{EnvelopeParams, Timing, Trigger};

use crate::{in_turns, stacks};

/// The bytes of a long take's output.
const LONG: usize = 8 << 20;

/// The frames records of a long take, and the events before each of them.
const LONG_RECORDS: u32 = 32;
const LONG_EVENTS: u64 = 8;

/// The events of a short list beside its frames.
const EVENTS: usize = 200;

/// The most levels of a short list, of four bytes each.
const SHORT: usize = 16_384;

const CLOCK: Timing = Timing::new(48_000.0);

/// A bent attack, decay and release of usual lengths.
const SETTINGS: EnvelopeParams = EnvelopeParams {
    attack: 5.0,
    decay: 300.0,
    sustain: 0.5,
    release: 200.0,
    attack_curve: 0.3,
    ..EnvelopeParams::AMP
};

/// A bent decay of 20 s, so that no voice stands still within a take.
const MOVING: EnvelopeParams = EnvelopeParams {
    decay: 20_000.0,
    ..SETTINGS
};

/// Prints the tables.
pub fn print() {
    long_takes();
    short_lists();
    kinds();
    growing_lists();
    checks();
    stack();
}

/// A list as it grows.
struct List {
    bytes: Vec<u8>,
    voices: u8,
    random: Random,
}

impl List {
    fn open(voices: u8) -> Self {
        Self {
            bytes: Event::Open(voices, CLOCK, SETTINGS).record(),
            voices,
            random: Random::new(SEED),
        }
    }

    fn push(&mut self, event: Event) {
        self.bytes.extend(event.record());
    }

    fn voice(&mut self) -> u8 {
        self.random.below(self.voices.into()) as u8
    }

    /// An event as they come: mostly notes and their ends, and now and then a
    /// change.
    fn event(&mut self) {
        let voice = self.voice();
        let event = match self.random.below(100) {
            0..30 => Event::Trigger(voice, Trigger::New),
            30..36 => Event::Trigger(voice, Trigger::Retrigger),
            36..42 => Event::Trigger(voice, Trigger::Legato),
            42..72 => Event::Release(voice),
            72..84 => Event::Settings(voice, self.settings()),
            84..92 => Event::Join(voice, self.voice()),
            92..96 => Event::Reset(voice),
            96..98 => Event::SettingsForAll(self.settings()),
            _ => Event::Timing(CLOCK.with_tempo(self.random.between(60.0, 180.0))),
        };
        self.push(event);
    }

    fn settings(&mut self) -> EnvelopeParams {
        EnvelopeParams {
            decay: self.random.between(50.0, 500.0) as f32,
            sustain: self.random.between(0.2, 0.9) as f32,
            ..SETTINGS
        }
    }
}

fn stride(voices: u8) -> usize {
    refusals::stride(voices.into()) as usize
}

/// A note on every voice, then long blocks with a few events before each: as
/// they come, or new notes alone, whose decay outlasts the take.
fn long_take(voices: u8, moving: bool) -> Vec<u8> {
    let mut list = List::open(voices);
    if moving {
        list.push(Event::SettingsForAll(MOVING));
    }
    for voice in 0..voices {
        list.push(Event::Trigger(voice, Trigger::New));
    }
    let frames = (LONG / 4 / stride(voices)) as u32;
    for _ in 0..LONG_RECORDS {
        for _ in 0..LONG_EVENTS {
            if moving {
                let voice = list.voice();
                list.push(Event::Trigger(voice, Trigger::New));
            } else {
                list.event();
            }
        }
        list.push(Event::Frames(frames / LONG_RECORDS));
    }
    list.bytes
}

/// Events with so many frames after every few of them.
fn short_list(voices: u8, every: usize, frames: u32) -> Vec<u8> {
    let mut list = List::open(voices);
    for number in 1..=EVENTS {
        list.event();
        if frames > 0 && number % every == 0 {
            list.push(Event::Frames(frames));
        }
    }
    list.bytes
}

/// The median nanoseconds of playing `list` so many times into so many bytes.
fn plays(list: &[u8], times: usize, out_len: usize) -> [f64; 2] {
    let (mut out, mut expected) = (vec![0; out_len], vec![0; out_len]);
    let frames = library::play(list, &mut out);
    assert!(frames >= 0, "a list that is measured is refused");
    assert_eq!(frames, reference::play(list, &mut expected), "the frames");
    assert!(out == expected, "the levels");
    in_turns(
        || {
            for _ in 0..times {
                black_box(library::play(black_box(list), black_box(&mut out)));
            }
        },
        || {
            for _ in 0..times {
                black_box(reference::play(black_box(list), black_box(&mut expected)));
            }
        },
    )
    .map(|nanoseconds| nanoseconds / times as f64)
}

fn long_takes() {
    println!("\n| Long take | Voices | Levels | Ours, ns a level | Rust, ns a level | Ratio |");
    println!("|---|---:|---:|---:|---:|---:|");
    for (about, moving) in [("every voice moving", true), ("events as they come", false)] {
        for voices in [1, 16, 64] {
            let [ours, rust] = plays(&long_take(voices, moving), 1, LONG);
            let levels = LONG / 4;
            let each = |nanoseconds: f64| nanoseconds / levels as f64;
            println!(
                "| {about} | {voices} | {levels} | {:.3} | {:.3} | {:.2} |",
                each(ours),
                each(rust),
                ours / rust
            );
        }
    }
}

fn short_lists() {
    println!(
        "\n| 200 events, and frames | Voices | Levels | Ours, us a list | Rust, us a list | Ratio |"
    );
    println!("|---|---:|---:|---:|---:|---:|");
    for (about, every, frames) in [
        ("none", 1, 0),
        ("1 after each", 1, 1),
        ("4 after every 4", 4, 4),
        ("25 after every 20", 20, 25),
    ] {
        for voices in [16, 64] {
            let list = short_list(voices, every, frames);
            let levels = EVENTS / every * frames as usize * stride(voices);
            let [ours, rust] = plays(&list, 8, 4 * SHORT);
            println!(
                "| {about} | {voices} | {levels} | {:.1} | {:.1} | {:.2} |",
                ours / 1e3,
                rust / 1e3,
                ours / rust
            );
        }
    }
}

/// Lists of one kind of record, which is done in place in our player's loop, on
/// a bank whose voices all move.
fn kinds() {
    const RECORDS: usize = 1000;
    println!("\n| 1,000 records of | Voices | Ours, ns a record | Rust, ns a record | Ratio |");
    println!("|---|---:|---:|---:|---:|");
    type Push = fn(&mut List);
    let kinds: [(&str, usize, Push); 6] = [
        ("a new note", 0, |list| {
            let voice = list.voice();
            list.push(Event::Trigger(voice, Trigger::New));
        }),
        ("a release or a retrigger", 0, |list| {
            let voice = list.voice();
            let event = match list.random.below(2) {
                0 => Event::Release(voice),
                _ => Event::Trigger(voice, Trigger::Retrigger),
            };
            list.push(event);
        }),
        ("settings", 0, |list| {
            let (voice, settings) = (list.voice(), list.settings());
            list.push(Event::Settings(voice, settings));
        }),
        ("a join", 0, |list| {
            let (voice, from) = (list.voice(), list.voice());
            list.push(Event::Join(voice, from));
        }),
        ("1 frame", 1, |list| list.push(Event::Frames(1))),
        ("16 frames", 16, |list| list.push(Event::Frames(16))),
    ];
    for (about, frames, push) in kinds {
        for voices in [1, 16, 64] {
            let mut list = List::open(voices);
            list.push(Event::SettingsForAll(MOVING));
            for voice in 0..voices {
                list.push(Event::Trigger(voice, Trigger::New));
            }
            for _ in 0..RECORDS {
                push(&mut list);
            }
            let levels = RECORDS * frames * stride(voices);
            let [ours, rust] = plays(&list.bytes, 4, 4 * levels);
            let each = |nanoseconds: f64| nanoseconds / RECORDS as f64;
            println!(
                "| {about} | {voices} | {:.1} | {:.1} | {:.2} |",
                each(ours),
                each(rust),
                ours / rust
            );
        }
    }
}

/// Events as they come, with a few frames after every tenth record.
fn growing_lists() {
    println!(
        "\n| Records | Voices | Ours, us a list | Rust, us a list | Ratio | Ours, ns a record | Rust, ns a record |"
    );
    println!("|---:|---:|---:|---:|---:|---:|---:|");
    for records in [10, 100, 1000, 10_000] {
        let mut list = List::open(64);
        for number in 1..records {
            if number % 10 == 9 {
                list.push(Event::Frames(4));
            } else {
                list.event();
            }
        }
        let levels = records / 10 * 4 * stride(64);
        let [ours, rust] = plays(&list.bytes, 10_000 / records, 4 * levels);
        let each = |nanoseconds: f64| nanoseconds / records as f64;
        println!(
            "| {records} | 64 | {:.1} | {:.1} | {:.2} | {:.1} | {:.1} |",
            ours / 1e3,
            rust / 1e3,
            ours / rust,
            each(ours),
            each(rust)
        );
    }
}

/// Lists of one kind of record, and the mixture.
fn checked_lists() -> [(&'static str, Vec<u8>); 4] {
    const RECORDS: usize = 1000;
    let filled = |next: fn(&mut List)| {
        let mut list = List::open(64);
        for _ in 0..RECORDS {
            next(&mut list);
        }
        list.bytes
    };
    [
        ("events as they come, and frames", short_list(64, 4, 4)),
        (
            "1,000 releases",
            filled(|list| {
                let voice = list.voice();
                list.push(Event::Release(voice));
            }),
        ),
        (
            "1,000 settings",
            filled(|list| {
                let (voice, settings) = (list.voice(), list.settings());
                list.push(Event::Settings(voice, settings));
            }),
        ),
        (
            "1,000 of 0 frames",
            filled(|list| list.push(Event::Frames(0))),
        ),
    ]
}

fn checks() {
    println!(
        "\n| Checked alone | Records | Bytes | Ours, ns a record | Rust, ns a record | Ours, ns a byte | Rust, ns a byte | Ratio |"
    );
    println!("|---|---:|---:|---:|---:|---:|---:|---:|");
    for (about, list) in checked_lists() {
        let place = library::refused_at(&list, LONG);
        assert_eq!(
            place,
            list.len() as u64,
            "a list that is measured is refused"
        );
        let times = 64;
        let asked = |call: fn(&[u8], usize) -> u64| {
            for _ in 0..times {
                black_box(call(black_box(&list), black_box(LONG)));
            }
        };
        let [ours, rust] = in_turns(
            || asked(library::refused_at),
            || asked(reference::refused_at),
        )
        .map(|nanoseconds| nanoseconds / f64::from(times));
        let (records, bytes) = (records(&list).count(), list.len());
        println!(
            "| {about} | {records} | {bytes} | {:.2} | {:.2} | {:.3} | {:.3} | {:.2} |",
            ours / records as f64,
            rust / records as f64,
            ours / bytes as f64,
            rust / bytes as f64,
            ours / rust
        );
    }
}

/// How far down the stack each call goes, on a list with every kind of event.
fn stack() {
    println!("\n| Peak stack of | Ours, bytes | Rust, bytes |");
    println!("|---|---:|---:|");
    let list = long_take(64, false);
    let mut out = vec![0; LONG];
    let [play, refused_at] = library::player_addresses();
    let ours = stacks::deepest(play, &list, &mut out);
    let rust = stacks::deepest(stacks::rust_play as *const () as usize, &list, &mut out);
    println!("| `worfelli_play` | {} | {} |", shown(ours), shown(rust));
    let ours = stacks::deepest_check(refused_at, &list, LONG);
    let rust = stacks::rust_refused_at as *const () as usize;
    let rust = stacks::deepest_check(rust, &list, LONG);
    println!(
        "| `worfelli_refused_at` | {} | {} |",
        shown(ours),
        shown(rust)
    );
}

/// The bytes, or why they are not known.
fn shown(bytes: Result<usize, String>) -> String {
    bytes.map_or_else(|message| message, |bytes| bytes.to_string())
}
