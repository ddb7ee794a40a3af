//! Compares the player of the Rattle with one over the Rust's bank, byte for
//! byte: fixed and random event lists, played by the library.

use std::process::ExitCode;

use compare::arguments::Arguments;
use compare::players;
use compare::players::comparison::Comparison;
use compare::players::stored;
use compare::program::Program;

const HELP: &str = "\
Compares the library's player with one over the Rust's bank, byte for byte, on
fixed and random event lists, many of them damaged: the result, the place, the
output, what has to stay, and some lists once more with their frames cut.
Prints each difference, what the lists reached, the cases of each subject and
their sum; the status is 1 on any difference, where something was never reached
(a few thousand lists reach everything), and where the stored lists and answers
of crates/replay_lists are not those that would be written.
  --seed N    what the random lists follow from, decimal or 0x hexadecimal
  --cases N   random lists, beside the fixed ones
  --write DIR alone: compares nothing, and writes the short fixed lists to
              DIR/stdin and the Rust's answers to DIR/stdout";

fn main() -> ExitCode {
    let program = Program {
        help: HELP,
        cases: 400_000,
        stored: Some(stored::files),
    };
    program.run(compare)
}

fn compare(arguments: Arguments) -> Result<Comparison, String> {
    stored::compare()?;
    let mut comparison = Comparison::new(arguments.seed)?;
    for drawn in players::all(arguments)? {
        comparison.case(&drawn.case, &drawn.damages)?;
    }
    Ok(comparison)
}
