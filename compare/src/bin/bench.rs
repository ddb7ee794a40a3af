//! Measures the number helpers, notes of the single envelope, a bank as hosts
//! call it, its blocks and how they grow, and event lists of the player beside
//! their Rust counterparts, and prints nanoseconds as Markdown tables. It
//! asserts nothing about time.

#[path = "../bench/banks.rs"]
mod banks;
#[path = "../bench/envelopes.rs"]
mod envelopes;
#[path = "../bench/growth.rs"]
mod growth;
#[path = "../bench/helpers.rs"]
mod helpers;
#[path = "../bench/notes.rs"]
mod notes;
#[path = "../bench/passes.rs"]
mod passes;
#[path = "../bench/players.rs"]
mod players;
#[path = "../bench/stacks.rs"]
mod stacks;

use std::process::ExitCode;
use std::time::Instant;

use compare::arguments::BAD_ARGUMENTS;
use compare::simd;

const HELP: &str = "\
Measures the number helpers, notes of the single envelope, blocks, calls and
readings of one voice and of a bank over C and over the crate of hosts/rust, how
they grow, and event lists of the Rattle libraries and of the Rust on the same
inputs, in turns, and prints the median nanoseconds per call, per frame of a
note, per level of a block, and per level, list, record and byte of event lists,
as Markdown tables; and how far down the stack the player's calls go. A name
prints that part alone: helpers, notes, envelopes, banks, growth, players.";

/// The passes of a row.
const PASSES: usize = 101;

/// The parts, in the order of printing.
const PARTS: [(&str, fn()); 6] = [
    ("helpers", helpers::print),
    ("notes", notes::print),
    ("envelopes", envelopes::print),
    ("banks", banks::print),
    ("growth", growth::print),
    ("players", players::print),
];

fn main() -> ExitCode {
    let given = std::env::args().nth(1);
    let asked = match given.as_deref() {
        Some("--help" | "-h") => {
            println!("{HELP}");
            return ExitCode::SUCCESS;
        }
        Some(other) if PARTS.iter().all(|(name, _)| *name != other) => {
            eprintln!("unknown argument {other:?} (--help says what this does)");
            return ExitCode::from(BAD_ARGUMENTS);
        }
        asked => asked,
    };
    // Only the Rust's bank has groups of lanes that stand still.
    simd::use_still_shortcut();
    for (name, print) in PARTS {
        if asked.is_none_or(|asked| asked == name) {
            print();
        }
    }
    ExitCode::SUCCESS
}

/// The nanoseconds that something takes.
fn nanoseconds(done: impl FnOnce()) -> f64 {
    let start = Instant::now();
    done();
    start.elapsed().as_nanos() as f64
}

/// The median nanoseconds of ours and of the Rust's, measured in turns so that
/// a busy machine slows both.
fn in_turns(mut ours: impl FnMut(), mut rust: impl FnMut()) -> [f64; 2] {
    medians(|| [nanoseconds(&mut ours), nanoseconds(&mut rust)])
}

/// The medians of what passes answer.
fn medians<const N: usize>(mut pass: impl FnMut() -> [f64; N]) -> [f64; N] {
    let passes: Vec<[f64; N]> = (0..PASSES).map(|_| pass()).collect();
    std::array::from_fn(|side| {
        let mut times: Vec<f64> = passes.iter().map(|times| times[side]).collect();
        times.sort_by(f64::total_cmp);
        times[PASSES / 2]
    })
}
