//! Compares the single envelope of the Rattle with the Rust, bits against
//! bits: fixed and random lists of calls, asked of the program `replay`.

use std::process::ExitCode;

use compare::arguments::Arguments;
use compare::comparison::Comparison;
use compare::program::Program;
use compare::{fixed, random_lists, replay, stored};

const HELP: &str = "\
Compares the program replay with the Rust's envelope, bits against bits, on
fixed and random lists of calls. Prints each difference, what the lists
reached, the cases of each subject and their sum; the status is 1 on any
difference, and where a stage never met some call (a few hundred lists do).
WORFELLI_REPLAY names the program, read from the present folder; else it is
crates/replay/out/replay of the repository.
  --seed N    what the random lists follow from, decimal or 0x hexadecimal
  --cases N   random lists, beside the fixed ones
  --write DIR alone: compares nothing, and writes the calls of the short fixed
              lists, the bank's too, to DIR/stdin and the Rust's answers to
              DIR/stdout";

fn main() -> ExitCode {
    let program = Program {
        help: HELP,
        cases: 24_000,
        stored: Some(stored::files),
    };
    program.run(compare)
}

fn compare(Arguments { seed, cases }: Arguments) -> Result<Comparison, String> {
    let lists = random_lists::lists(seed).after(fixed::lists()?, cases);
    let mut comparison = Comparison::default();
    replay::compare(&replay::program(), lists, &mut comparison)?;
    Ok(comparison)
}
