//! Counts cases and differences by subject, prints the first differences of
//! each and, at the end, the counts.

use std::process::ExitCode;

/// Differences that are printed for one subject; the rest is only counted.
const SHOWN: u64 = 10;

/// A number that is compared by its bits.
pub trait Bits: Copy {
    /// Hexadecimal digits that it is printed with.
    const DIGITS: usize;

    /// Its bits.
    fn given(self) -> u64;

    /// Its bits, every NaN as one pattern: a NaN that is handed out has none
    /// in particular.
    fn compared(self) -> u64 {
        self.given()
    }
}

impl Bits for bool {
    const DIGITS: usize = 1;

    fn given(self) -> u64 {
        self.into()
    }
}

impl Bits for u8 {
    const DIGITS: usize = 2;

    fn given(self) -> u64 {
        self.into()
    }
}

impl Bits for i64 {
    const DIGITS: usize = 16;

    fn given(self) -> u64 {
        self as u64
    }
}

impl Bits for u32 {
    const DIGITS: usize = 8;

    fn given(self) -> u64 {
        self.into()
    }
}

impl Bits for u64 {
    const DIGITS: usize = 16;

    fn given(self) -> u64 {
        self
    }
}

impl Bits for f32 {
    const DIGITS: usize = 8;

    fn given(self) -> u64 {
        self.to_bits().into()
    }

    fn compared(self) -> u64 {
        if self.is_nan() {
            0x7fc0_0000
        } else {
            self.given()
        }
    }
}

impl Bits for f64 {
    const DIGITS: usize = 16;

    fn given(self) -> u64 {
        self.to_bits()
    }

    fn compared(self) -> u64 {
        if self.is_nan() {
            0x7ff8_0000_0000_0000
        } else {
            self.given()
        }
    }
}

fn hex<T: Bits>(bits: u64) -> String {
    format!("{bits:0width$x}", width = T::DIGITS)
}

/// The inputs of a case.
pub trait Inputs {
    /// Their bits as given, in hexadecimal.
    fn shown(self) -> String;
}

macro_rules! inputs {
    ($($name:ident: $type:ident),*) => {
        impl<$($type: Bits),*> Inputs for ($($type,)*) {
            fn shown(self) -> String {
                let ($($name,)*) = self;
                [$(hex::<$type>($name.given())),*].join(", ")
            }
        }
    };
}

inputs!(a: A);
inputs!(a: A, b: B);
inputs!(a: A, b: B, c: C);
inputs!(a: A, b: B, c: C, d: D, e: E);

/// The cases of one subject.
pub struct Tally {
    /// Whose answers are compared, where there are several.
    side: &'static str,
    name: &'static str,
    cases: u64,
    differences: u64,
}

impl Tally {
    #[must_use]
    pub fn new(name: &'static str) -> Self {
        Self::of("", name)
    }

    /// The subject of one side, which is printed with it.
    #[must_use]
    pub fn of(side: &'static str, name: &'static str) -> Self {
        Self {
            side,
            name,
            cases: 0,
            differences: 0,
        }
    }

    /// One case: `ours` has to be the Rust's answer, in bits.
    #[inline]
    pub fn check<T: Bits>(&mut self, inputs: impl Inputs, ours: T, rust: T) {
        self.cases += 1;
        if ours.compared() != rust.compared() {
            self.differ(inputs, ours, rust);
        }
    }

    /// So many cases at once that were found to be the same.
    pub fn same(&mut self, cases: usize) {
        self.cases += cases as u64;
    }

    #[cold]
    fn differ<T: Bits>(&mut self, inputs: impl Inputs, ours: T, rust: T) {
        self.differences += 1;
        if self.differences <= SHOWN {
            let (ours, rust) = (hex::<T>(ours.compared()), hex::<T>(rust.compared()));
            let (name, inputs) = (self.shown(), inputs.shown());
            println!("{name}({inputs}): ours {ours}, Rust {rust}");
        }
    }

    #[must_use]
    pub fn name(&self) -> &'static str {
        self.name
    }

    /// Its name with its side.
    fn shown(&self) -> String {
        match self.side {
            "" => self.name.into(),
            side => format!("{side}: {}", self.name),
        }
    }

    /// Whether there were cases, and no difference.
    #[must_use]
    pub fn is_good(&self) -> bool {
        self.cases > 0 && self.differences == 0
    }

    fn line(&self) -> String {
        let (name, differences) = (self.shown(), self.differences);
        match self.cases {
            0 => format!("{name}: no case was run"),
            cases => format!("{name}: {cases} cases, {differences} different"),
        }
    }
}

/// Prints every subject's counts and their sum, and answers the exit status:
/// failure on any difference, and where a subject ran no case.
#[must_use]
pub fn finish(tallies: &[Tally]) -> ExitCode {
    for tally in tallies {
        println!("{}", tally.line());
    }
    let cases: u64 = tallies.iter().map(|tally| tally.cases).sum();
    let differences: u64 = tallies.iter().map(|tally| tally.differences).sum();
    println!("total: {cases} cases, {differences} different");
    if !tallies.is_empty() && tallies.iter().all(Tally::is_good) {
        ExitCode::SUCCESS
    } else {
        ExitCode::FAILURE
    }
}

#[cfg(test)]
mod tests {
    use super::*;

    #[test]
    fn nothing_run_is_not_good() {
        let tally = Tally::new("narrow");
        assert!(!tally.is_good());
        assert_eq!(tally.line(), "narrow: no case was run");
        let tally = Tally::of("C", "stage");
        assert_eq!(tally.line(), "C: stage: no case was run");
    }

    #[test]
    fn compares_bits_but_not_those_of_a_nan() {
        let mut tally = Tally::new("negated");
        tally.check((1.0_f32,), f32::NAN, f32::from_bits(0xff80_0001));
        assert!(tally.is_good());
        tally.check((1.0_f32, true), 0.0, -0.0);
        assert!(!tally.is_good());
        assert_eq!(tally.line(), "negated: 2 cases, 1 different");
    }

    #[test]
    fn shows_inputs_as_given() {
        let nan = f64::from_bits(0xfff0_0000_0000_0001);
        assert_eq!((true, nan, 5_u32).shown(), "1, fff0000000000001, 00000005");
    }
}
