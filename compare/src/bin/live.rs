//! Compares live banks with the Rust's, bits against bits: fixed and random
//! lists of calls, made through the C functions, on a bank and on arrays apart,
//! and through the Rust crate.

use std::process::ExitCode;

use compare::arguments::Arguments;
use compare::banks;
use compare::live::comparison::Comparison;
use compare::program::Program;

const HELP: &str = "\
Compares live banks with the Rust's bank, bits against bits, on fixed and random
lists of calls: through the functions of include/worfelli.h as a C compiler makes
them, through those that take a bank's four arrays apart, and through the crate
of hosts/rust. Compares the answer to each call, each level, what a refused call
has to leave, and after each call the readings of every voice (on arrays apart of
one voice in turn); each list once more with its blocks cut; and over C codes
that mean nothing. Prints each difference, what the lists reached, the cases of
each subject and their sum; the status is 1 on any difference, and where
something was never reached (a few hundred lists reach everything).
  --seed N    what the random lists follow from, decimal or 0x hexadecimal
  --cases N   random lists, beside the fixed ones";

fn main() -> ExitCode {
    let program = Program {
        help: HELP,
        cases: 16_000,
        stored: None,
    };
    program.run(compare)
}

fn compare(arguments: Arguments) -> Result<Comparison, String> {
    let mut comparison = Comparison::new(arguments.seed)?;
    for list in banks::all(arguments)? {
        comparison.list(&list);
    }
    Ok(comparison)
}
