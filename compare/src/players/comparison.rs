//! The library's answers to lists, held against the reference's: the result,
//! the place, every byte of the output, and the bytes that have to stay. The
//! library gets the list and the output at unmapped pages, so that it can't
//! read or write past their ends.

use crate::banks::refusals::stride;
use crate::library;
use crate::players::checks::{LEVEL, check};
use crate::players::coverage::Coverage;
use crate::players::damages::Damage;
use crate::players::memory::{Guarded, Side};
use crate::players::random::LONGEST;
use crate::players::records::{Event, record, records};
use crate::players::{Case, before, reference, stops};
use crate::program::Compared;
use crate::random::Random;
use crate::report::{Inputs, Tally};

/// The most bytes of a list.
const LONGEST_LIST: usize = 1 << 20;

/// Bytes beside an output that are looked at.
const BESIDE: usize = 64;

/// What stands there.
const BESIDE_BYTE: u8 = 0xa5;

/// A list is shown in full up to so many bytes.
const SHOWN: usize = 400;

/// One accepted list in so many is also played with its frames cut.
const CUT: u64 = 3;

/// Where a case stands: the list, and which part of the answer.
#[derive(Clone, Copy)]
struct Place<'a> {
    case: &'a Case,
    part: Part,
}

#[derive(Clone, Copy)]
enum Part {
    Whole,
    Byte(usize),
    /// The place in an output of so many bytes.
    OfLength(usize),
}

impl Inputs for Place<'_> {
    fn shown(self) -> String {
        let Case {
            name,
            list,
            out_len,
        } = self.case;
        let part = match self.part {
            Part::Whole => String::new(),
            Part::Byte(at) => format!(", byte {at}"),
            Part::OfLength(length) => format!(", asked with {length}"),
        };
        let bytes = list.iter().take(SHOWN).map(|byte| format!("{byte:02x}"));
        let bytes: String = bytes.collect();
        let more = if list.len() > SHOWN { ".." } else { "" };
        format!("{name}, output of {out_len}{part}, list {bytes}{more}")
    }
}

/// What both sides are asked with.
struct Sides {
    list: Guarded,
    out: Guarded,
    /// Where the last output stands.
    side: Side,
    expected: Vec<u8>,
    /// What an output holds before.
    before: Vec<u8>,
}

/// The subjects of the comparison, and what it reached.
pub struct Comparison {
    result: Tally,
    place: Tally,
    info: Tally,
    written: Tally,
    kept: Tally,
    beside: Tally,
    list_kept: Tally,
    cut_result: Tally,
    cut_output: Tally,
    sides: Sides,
    random: Random,
    lists: u64,
    coverage: Coverage,
}

impl Comparison {
    /// Nothing compared yet. The sides' choices follow from `seed`.
    ///
    /// # Errors
    ///
    /// There is no memory for it.
    pub fn new(seed: u64) -> Result<Self, String> {
        stops::tell();
        let sides = Sides {
            list: Guarded::new(LONGEST_LIST + BESIDE)?,
            out: Guarded::new(LONGEST + BESIDE)?,
            side: Side::End,
            expected: Vec::with_capacity(LONGEST),
            before: (0..LONGEST).map(before).collect(),
        };
        Ok(Self {
            result: Tally::new("result"),
            place: Tally::new("place"),
            info: Tally::new("voices and frames"),
            written: Tally::new("bytes written"),
            kept: Tally::new("bytes kept"),
            beside: Tally::new("bytes beside the output"),
            list_kept: Tally::new("list"),
            cut_result: Tally::new("result, frames cut"),
            cut_output: Tally::new("output, frames cut"),
            sides,
            random: Random::named(seed, "sides"),
            lists: 0,
            coverage: Coverage::default(),
        })
    }

    /// One list.
    ///
    /// # Errors
    ///
    /// It is too long to be compared.
    pub fn case(&mut self, case: &Case, damages: &[Damage]) -> Result<(), String> {
        if case.list.len() > LONGEST_LIST || case.out_len > LONGEST {
            return Err(format!("{}: too long to be compared", case.name));
        }
        self.lists += 1;
        self.coverage.add(case, damages);
        let frames = self.expect(case);
        self.places(case);
        self.infos(case);
        let result = self.played(case);
        self.result
            .check(place_of(case, Part::Whole), result, frames);
        self.output(case, frames);
        if frames > 0 && self.random.below(CUT) == 0 {
            self.cut(case, frames);
        }
        Ok(())
    }

    /// The reference's answer, whose output stays in `expected`.
    fn expect(&mut self, case: &Case) -> i64 {
        let expected = &mut self.sides.expected;
        expected.clear();
        expected.extend(&self.sides.before[..case.out_len]);
        reference::play(&case.list, expected)
    }

    /// The library's answer, whose output stays at the side that it got.
    fn played(&mut self, case: &Case) -> i64 {
        let sides = &mut self.sides;
        let (list, _) = sides.list.part(side(&mut self.random), case.list.len());
        list.copy_from_slice(&case.list);
        sides.side = side(&mut self.random);
        let (out, beside) = sides.out.part(sides.side, case.out_len);
        out.copy_from_slice(&sides.before[..case.out_len]);
        next_to(sides.side, beside).fill(BESIDE_BYTE);
        let result = stops::at(&case.name, || library::play(list, out));
        self.list_kept.check(
            place_of(case, Part::Whole),
            list == case.list.as_slice(),
            true,
        );
        result
    }

    /// The places by the output's length and by lengths around what the frames
    /// need, up to the largest that there is.
    fn places(&mut self, case: &Case) {
        let needed = needed(&case.list);
        let (list, _) = self.sides.list.part(Side::End, case.list.len());
        list.copy_from_slice(&case.list);
        for length in [
            case.out_len,
            0,
            needed.saturating_sub(1),
            needed,
            usize::MAX,
        ] {
            let ours = stops::at(&case.name, || library::refused_at(list, length));
            let rust = reference::refused_at(&case.list, length);
            self.place
                .check(place_of(case, Part::OfLength(length)), ours, rust);
        }
    }

    /// The voices and frames, or what refuses the list whatever the output, and
    /// then both as they were.
    fn infos(&mut self, case: &Case) {
        const BEFORE: (u64, u64) = (7777, 7_777_777);
        let (list, _) = self.sides.list.part(Side::End, case.list.len());
        let (mut voices, mut frames) = (BEFORE.0 as usize, BEFORE.1);
        let ours = stops::at(&case.name, || {
            library::list_info(list, &mut voices, &mut frames)
        });
        let (refusal, rust) = match check(&case.list, usize::MAX) {
            Ok(frames) => (0, (opened(&case.list), frames)),
            Err(refused) => (refused.number, BEFORE),
        };
        let place = place_of(case, Part::Whole);
        self.info.check(place, ours, refusal);
        self.info.check(place, voices as u64, rust.0);
        self.info.check(place, frames, rust.1);
    }

    /// The output's bytes, and those beside it.
    fn output(&mut self, case: &Case, frames: i64) {
        let Sides {
            out,
            side,
            expected,
            ..
        } = &mut self.sides;
        let (out, beside) = out.part(*side, case.out_len);
        let written = written(&case.list, frames).min(expected.len());
        let (ours, kept) = out.split_at(written);
        let (rust, rust_kept) = expected.split_at(written);
        bytes(&mut self.written, case, 0, ours, rust);
        bytes(&mut self.kept, case, written, kept, rust_kept);
        let beside = next_to(*side, beside);
        let filled = [BESIDE_BYTE; BESIDE];
        bytes(&mut self.beside, case, 0, beside, &filled[..beside.len()]);
    }

    /// The same list with each of its frames records cut in two gives the same.
    fn cut(&mut self, case: &Case, frames: i64) {
        let cut = Case {
            name: format!("{}, cut", case.name),
            list: cut(&mut self.random, &case.list),
            out_len: case.out_len,
        };
        if cut.list.len() > LONGEST_LIST {
            return;
        }
        let result = self.played(&cut);
        self.cut_result
            .check(place_of(&cut, Part::Whole), result, frames);
        let (out, _) = self.sides.out.part(self.sides.side, cut.out_len);
        bytes(&mut self.cut_output, &cut, 0, out, &self.sides.expected);
    }
}

impl Compared for Comparison {
    fn print(&self) -> bool {
        println!("{} lists", self.lists);
        self.coverage.print()
    }

    fn tallies(self) -> Vec<Tally> {
        vec![
            self.result,
            self.place,
            self.info,
            self.written,
            self.kept,
            self.beside,
            self.list_kept,
            self.cut_result,
            self.cut_output,
        ]
    }
}

fn place_of(case: &Case, part: Part) -> Place<'_> {
    Place { case, part }
}

fn side(random: &mut Random) -> Side {
    if random.coin() {
        Side::Start
    } else {
        Side::End
    }
}

/// The bytes of `beside` that are next to a part on `side`.
fn next_to(side: Side, beside: &mut [u8]) -> &mut [u8] {
    let length = beside.len().min(BESIDE);
    match side {
        Side::Start => &mut beside[..length],
        Side::End => {
            let first = beside.len() - length;
            &mut beside[first..]
        }
    }
}

/// The bytes that a result of so many frames has written.
fn written(list: &[u8], frames: i64) -> usize {
    let frames = usize::try_from(frames).unwrap_or(0);
    frames * stride(opened(list)) as usize * LEVEL
}

/// The voices that a list opens, as its first record has them.
fn opened(list: &[u8]) -> u64 {
    let voices = records(list).next().and_then(|(_, body)| body.first());
    voices.map_or(0, |voices| u64::from(*voices))
}

/// The bytes that the frames need of all records up to the first that is
/// refused whatever the output's length.
fn needed(list: &[u8]) -> usize {
    let end = check(list, usize::MAX).map_or_else(|refused| refused.at, |_| list.len());
    let frames = check(&list[..end], usize::MAX).unwrap_or(0);
    written(list, frames as i64)
}

/// Bytes that stand at `first` and after it.
fn bytes(tally: &mut Tally, case: &Case, first: usize, ours: &[u8], rust: &[u8]) {
    if ours == rust {
        tally.same(ours.len());
        return;
    }
    for (at, (ours, rust)) in ours.iter().zip(rust).enumerate() {
        tally.check(place_of(case, Part::Byte(first + at)), *ours, *rust);
    }
}

/// An accepted list with each of its frames records cut in two.
fn cut(random: &mut Random, list: &[u8]) -> Vec<u8> {
    let mut parts = Vec::new();
    for (tag, body) in records(list) {
        match Event::read(tag, body) {
            Some(Event::Frames(count)) => {
                let first = random.below(u64::from(count) + 1) as u32;
                parts.extend(Event::Frames(first).record());
                parts.extend(Event::Frames(count - first).record());
            }
            _ => parts.extend(record(tag, body)),
        }
    }
    parts
}

#[cfg(test)]
mod tests {
    use super::*;
    use crate::fixed::{RATE_1000, SAMPLE};

    #[test]
    fn frames_are_cut_and_nothing_else() {
        let events = [
            Event::Open(17, RATE_1000, SAMPLE),
            Event::Frames(70_000),
            Event::Release(3),
            Event::Frames(0),
        ];
        let list: Vec<u8> = events.iter().flat_map(Event::record).collect();
        let cut = cut(&mut Random::new(1), &list);
        assert_eq!(records(&cut).count(), 6);
        assert_eq!(check(&cut, usize::MAX), Ok(70_000));
        assert_eq!(needed(&list), 70_000 * 32 * 4);
        assert_eq!(written(&list, 3), 3 * 32 * 4);
        assert_eq!(written(&[], -9), 0);
    }

    #[test]
    fn a_list_is_shown_with_its_bytes() {
        let case = Case {
            name: "list 0".into(),
            list: vec![1, 255],
            out_len: 63,
        };
        let shown = place_of(&case, Part::Byte(7)).shown();
        assert_eq!(shown, "list 0, output of 63, byte 7, list 01ff");
    }
}
