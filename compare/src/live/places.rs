//! Where a case of the comparison stands.

use crate::banks::calls::Call;
use crate::banks::words;
use crate::live::coded::Coded;
use crate::report::Inputs;

/// The list, the call by its number from 0, and which part of the answer, if
/// there are several.
#[derive(Clone, Copy)]
pub struct Place<'a> {
    pub list: &'a str,
    pub number: usize,
    pub call: Asked<'a>,
    pub part: Part,
}

/// What the host was asked.
#[derive(Clone, Copy)]
pub enum Asked<'a> {
    Call(&'a Call),
    /// In place of the call, with codes that mean nothing.
    Coded(&'a Coded),
}

#[derive(Clone, Copy)]
pub enum Part {
    Whole,
    /// A word of a voice's reading, by its subject and name.
    Word(u64, &'static str, &'static str),
    Level(usize),
}

impl Place<'_> {
    #[must_use]
    pub fn of(self, part: Part) -> Self {
        Self { part, ..self }
    }
}

impl Inputs for Place<'_> {
    fn shown(self) -> String {
        let part = match self.part {
            Part::Whole => String::new(),
            Part::Word(voice, subject, word) => {
                format!(", voice {voice}, {}", words::named(subject, word))
            }
            Part::Level(number) => format!(", level {number}"),
        };
        let call = match self.call {
            Asked::Call(call) => call.shown(),
            Asked::Coded(coded) => coded.shown(),
        };
        format!("{}, call {} {call}{part}", self.list, self.number)
    }
}
