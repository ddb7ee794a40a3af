//! The frame of a program that compares: its arguments, the seed that it
//! follows, what was reached, the counts, and the exit status.

use std::fs;
use std::path::Path;
use std::process::ExitCode;

use crate::arguments::{self, Arguments};
use crate::report::{self, Tally};

/// What the random inputs follow from unless told otherwise.
pub const SEED: u64 = 0x776f_7266_656c_6c69;

/// What was compared.
pub trait Compared {
    /// Prints what was reached, and answers whether it was everything.
    fn print(&self) -> bool;

    /// The counts by subject.
    fn tallies(self) -> Vec<Tally>;
}

/// The files on which a program of the Rattle is run where there is no Rust.
pub const FILES: [&str; 2] = ["stdin", "stdout"];

/// Makes their bytes.
type Stored = fn() -> Result<[Vec<u8>; 2], String>;

/// What one program has of its own beside the comparing.
pub struct Program {
    /// What `--help` prints.
    pub help: &'static str,
    /// The random inputs unless told otherwise.
    pub cases: u64,
    /// What `--write` writes to a folder, where there is something to write.
    pub stored: Option<Stored>,
}

impl Program {
    /// Runs it. The status is a failure on any difference, where a subject had
    /// no case or something was never reached, and after the one line of an
    /// error.
    pub fn run<C: Compared>(
        &self,
        compare: impl FnOnce(Arguments) -> Result<C, String>,
    ) -> ExitCode {
        let given: Vec<String> = std::env::args().skip(1).collect();
        let done = match (given.as_slice(), self.stored) {
            ([write, folder], Some(stored)) if write == "--write" => {
                write_to(Path::new(folder), stored).map(|()| ExitCode::SUCCESS)
            }
            _ => match arguments::read(&given, self.help, self.defaults()) {
                Ok(arguments) => {
                    println!("seed {:#x}", arguments.seed);
                    compare(arguments).map(finish)
                }
                Err(status) => Ok(status),
            },
        };
        done.unwrap_or_else(|message| {
            eprintln!("{message}");
            ExitCode::FAILURE
        })
    }

    fn defaults(&self) -> Arguments {
        Arguments {
            seed: SEED,
            cases: self.cases,
        }
    }
}

fn write_to(folder: &Path, stored: Stored) -> Result<(), String> {
    for (name, bytes) in FILES.into_iter().zip(stored()?) {
        let file = folder.join(name);
        fs::write(&file, bytes).map_err(|error| format!("{}: {error}", file.display()))?;
    }
    Ok(())
}

fn finish(compared: impl Compared) -> ExitCode {
    let is_whole = compared.print();
    let status = report::finish(&compared.tallies());
    if is_whole { status } else { ExitCode::FAILURE }
}
