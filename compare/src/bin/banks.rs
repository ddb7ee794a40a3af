//! Compares the bank of the Rattle with the Rust, bits against bits: fixed and
//! random lists of calls, asked of the program `replay`.

use std::process::ExitCode;

use compare::arguments::Arguments;
use compare::banks;
use compare::banks::comparison::Comparison;
use compare::program::Program;
use compare::replay;

const HELP: &str = "\
Compares the bank of the program replay with the Rust, bits against bits, on
fixed and random lists of calls: with the Rust's bank, with its single envelope
run over each voice's history, and each list once more with its blocks cut.
Prints each difference, what the lists reached, the cases of each subject and
their sum; the status is 1 on any difference, and where something was never
reached (a few hundred lists reach everything).
WORFELLI_REPLAY names the program, read from the present folder; else it is
crates/replay/out/replay of the repository.
  --seed N    what the random lists follow from, decimal or 0x hexadecimal
  --cases N   random lists, beside the fixed ones";

fn main() -> ExitCode {
    let program = Program {
        help: HELP,
        cases: 16_000,
        stored: None,
    };
    program.run(compare)
}

fn compare(arguments: Arguments) -> Result<Comparison, String> {
    let mut comparison = Comparison::default();
    replay::compare(&replay::program(), banks::all(arguments)?, &mut comparison)?;
    Ok(comparison)
}
