//! One voice as a bank of it, over C and over the crate of hosts/rust, beside
//! the Rust's single envelope: hosts have no other envelope of one voice.

use compare::measured::asked::Kind;
use compare::rust::envelope::Envelope;

use crate::banks::{KINDS, READINGS};
use crate::passes::{BENT, Call, Three, head, row, sounding, timed_beside};

/// How many of the readings are of a voice.
const OF_A_VOICE: usize = 6;

/// Prints the table.
pub fn print() {
    head("One voice", "ns", "");
    println!("|---|---:|---:|---:|---:|---:|");
    row("`open`, one voice", timed(Call::Open), 2);
    for (about, kind, each) in KINDS {
        // What an envelope has, which is of one voice alone.
        let is_of_one = matches!(kind, Kind::Timing | Kind::OtherTiming) || !kind.is_for_all();
        if is_of_one && kind != Kind::Join {
            let times = timed(Call::Of(kind));
            row(about, times.map(|call| call / f64::from(each)), 2);
        }
    }
    for (about, query) in READINGS.into_iter().take(OF_A_VOICE) {
        row(about, timed(Call::Read(query)), 2);
    }
    for frames in [1, 16, 64, 256, 1024] {
        let times = timed(Call::Block(frames));
        let each = times.map(|block| block / frames as f64);
        row(&format!("a frame, in blocks of {frames}"), each, 2);
    }
}

fn timed(call: Call) -> Three {
    timed_beside::<Envelope>(sounding(BENT, 1), call)
}
