//! The arguments of a comparison: `--seed`, `--cases` and `--help`.

use std::process::ExitCode;

/// The exit status for arguments that make no sense.
pub const BAD_ARGUMENTS: u8 = 2;

/// What a comparison is asked to run.
#[derive(Clone, Copy, Debug, PartialEq, Eq)]
pub struct Arguments {
    /// What the random inputs follow from.
    pub seed: u64,
    /// How many random inputs; the comparison says of what.
    pub cases: u64,
}

/// The arguments in `given`, or how to exit at once: after `--help`, which
/// prints `help`, or after one line about what is wrong.
///
/// # Errors
///
/// There is nothing to run.
pub fn read(given: &[String], help: &str, defaults: Arguments) -> Result<Arguments, ExitCode> {
    match parse(given, defaults) {
        Ok(Some(arguments)) => Ok(arguments),
        Ok(None) => {
            println!("{help}");
            Err(ExitCode::SUCCESS)
        }
        Err(message) => {
            eprintln!("{message} (--help lists the arguments)");
            Err(ExitCode::from(BAD_ARGUMENTS))
        }
    }
}

/// The arguments in `given`, or none if help is asked for.
fn parse(given: &[String], defaults: Arguments) -> Result<Option<Arguments>, String> {
    let mut arguments = defaults;
    let mut given = given.iter();
    while let Some(name) = given.next() {
        let target = match name.as_str() {
            "--help" | "-h" => return Ok(None),
            "--seed" => &mut arguments.seed,
            "--cases" => &mut arguments.cases,
            _ => return Err(format!("unknown argument {name:?}")),
        };
        let value = given.next().ok_or(format!("{name} lacks its number"))?;
        *target = number(value).ok_or(format!("{name} {value:?} is not a 64-bit number"))?;
    }
    Ok(Some(arguments))
}

/// A whole number, decimal or hexadecimal after `0x`.
fn number(text: &str) -> Option<u64> {
    match text.strip_prefix("0x") {
        Some(digits) => u64::from_str_radix(digits, 16).ok(),
        None => text.parse().ok(),
    }
}

#[cfg(test)]
mod tests {
    use super::*;

    fn parsed(given: &[&str]) -> Result<Option<Arguments>, String> {
        let given: Vec<String> = given.iter().map(ToString::to_string).collect();
        parse(&given, Arguments { seed: 1, cases: 2 })
    }

    #[test]
    fn good_and_bad() {
        let expected = Arguments {
            seed: 0xf,
            cases: 7,
        };
        assert_eq!(
            parsed(&["--seed", "0xf", "--cases", "7"]),
            Ok(Some(expected))
        );
        assert_eq!(parsed(&["--help"]), Ok(None));
        for bad in [&["--seed"][..], &["--seed", "x"], &["more"]] {
            assert!(parsed(bad).is_err(), "{bad:?}");
        }
    }
}
