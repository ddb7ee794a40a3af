//! Blocks, calls and readings of a bank over C and over the crate of
//! hosts/rust, beside those of the Rust's own.

use std::hint::black_box;

use compare::measured::Measured;
use compare::measured::asked::{Chord, Kind, Opening, Query, VOICES};
use compare::rust::envelope::{EnvelopeBank, Trigger};

use crate::passes::{BENT, Call, STRAIGHT, figures, head, row, sounding, timed};
use crate::{medians, nanoseconds};

/// How rows name the kinds of calls, and how many calls each is.
#[rustfmt::skip]
pub const KINDS: [(&str, Kind, u32); 12] = [
    ("`trigger`, a new note", Kind::Trigger, 1),
    ("`trigger`, a retrigger", Kind::Retrigger, 1),
    ("`trigger`, a legato note", Kind::Legato, 1),
    ("a new note, then `release`, each", Kind::Release, 2),
    ("`reset`", Kind::Reset, 1),
    ("`join` of its neighbour", Kind::Join, 1),
    ("`set_params`, those that it has", Kind::Settings, 1),
    ("`set_params`, another sustain", Kind::OtherSettings, 2),
    ("`set_all_params`, those that they have", Kind::AllSettings, 1),
    ("`set_all_params`, another sustain", Kind::AllOtherSettings, 2),
    ("`set_timing`, the one that it has", Kind::Timing, 1),
    ("`set_timing`, another time scale", Kind::OtherTiming, 2),
];

/// How rows name the chords.
const CHORDS: [(&str, Trigger); 3] = [
    ("new notes", Trigger::New),
    ("retriggers", Trigger::Retrigger),
    ("legato notes", Trigger::Legato),
];

/// How rows name the readings: those of a voice, then those of a bank.
pub const READINGS: [(&str, Query); 8] = [
    ("`params`, its decay's bits", Query::Params),
    ("`stage`", Query::Stage),
    ("`level`", Query::Level),
    ("`is_idle`", Query::Idle),
    ("`tail`, beside the reference's", Query::Tail),
    ("`lead`, beside the reference's", Query::Lead),
    ("`voices` of the bank", Query::Voices),
    ("`stride` of the bank", Query::Stride),
];

/// Prints the tables.
pub fn print() {
    blocks();
    calls();
    chords();
    planning();
    readings();
}

/// Blocks of voices that are all in a bent stage, all idle, or mixed: the first
/// half of them in one and the others idle.
fn blocks() {
    head(
        "Draw | Voices | Frames of a block",
        "ns a level",
        " Plain fill, ns a level |",
    );
    println!("|---|---:|---:|---:|---:|---:|---:|---:|---:|");
    for about in ["bent", "idle", "mixed"] {
        for voices in [1, 16, VOICES] {
            let notes = match about {
                "bent" => voices,
                "idle" => 0,
                _ => voices / 2,
            };
            // Of one voice there is no half.
            if about == "mixed" && voices == 1 {
                continue;
            }
            let opening = Opening {
                notes: notes as u32,
                ..sounding(BENT, voices)
            };
            for frames in [1, 16, 64, 256, 1024] {
                let levels = frames * EnvelopeBank::levels(voices);
                let times = timed(opening, Call::Block(frames));
                let each = figures(times.map(|block| block / levels as f64), 3);
                let fill = fill(levels, Call::Block(frames).times(voices));
                println!("| {about} | {voices} | {frames} | {each} | {fill:.3} |");
            }
        }
    }
}

/// The median nanoseconds a level of filling an output of so many levels, so
/// many times.
fn fill(levels: usize, times: u32) -> f64 {
    let mut out = vec![0.0; levels];
    let [fills] = medians(|| {
        [nanoseconds(|| {
            for _ in 0..times {
                black_box(&mut *out).fill(black_box(0.5));
            }
        })]
    });
    fills / f64::from(times) / levels as f64
}

/// Calls on one voice of 64 after the other, or on all of them, each sounding
/// a bent decay.
fn calls() {
    head("A call on one of 64 voices, or on all", "ns", "");
    println!("|---|---:|---:|---:|---:|---:|");
    let opening = sounding(BENT, VOICES);
    row("`open`, 64 voices", timed(opening, Call::Open), 2);
    for (about, kind, each) in KINDS {
        let times = timed(opening, Call::Of(kind));
        row(about, times.map(|call| call / f64::from(each)), 2);
    }
}

/// Chords of a bank of 64 voices, each sounding a bent decay, which a legato
/// note leaves alone.
fn chords() {
    head("A chord of | Voices", "ns a voice", "");
    println!("|---|---:|---:|---:|---:|---:|---:|");
    for (about, trigger) in CHORDS {
        for voices in [4, 16, VOICES] {
            let chord = Call::Chord(Chord { trigger, voices });
            let times = timed(sounding(BENT, VOICES), chord);
            let each = times.map(|chord| chord / voices as f64);
            row(&format!("{about} | {voices}"), each, 2);
        }
    }
}

/// What planning costs, by the calls that plan: the Rust's own cannot be called
/// alone.
fn planning() {
    head("Planned on each of 64 voices", "ns a voice", "");
    println!("|---|---:|---:|---:|---:|---:|");
    for (about, sound) in [("a bent decay", BENT), ("a straight attack", STRAIGHT)] {
        let opening = sounding(sound, VOICES);
        let note = timed(opening, Call::Of(Kind::Trigger));
        row(&format!("{about}, by a new note"), note, 2);
        let changed = timed(opening, Call::Of(Kind::OtherTiming));
        let each = changed.map(|call| call / 2.0 / VOICES as f64);
        row(&format!("{about} anew, by another time scale"), each, 2);
    }
}

/// The loop is in every figure. The Rust's own readings are inlined into it, so
/// that those of the whole bank are made once.
fn readings() {
    head("A reading of one of 64 voices", "ns", "");
    println!("|---|---:|---:|---:|---:|---:|");
    for (about, query) in READINGS {
        row(about, timed(sounding(BENT, VOICES), Call::Read(query)), 2);
    }
}
