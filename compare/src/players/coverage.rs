//! What the lists reached: each record accepted and by each number that can
//! refuse it, the damages, and the places where something is easily got wrong.
//! What was not reached is not compared, so it is a failure.

use std::collections::BTreeMap;

use crate::banks::refusals::stride;
use crate::coverage::counted;
use crate::players::Case;
use crate::players::checks::{CODE, FIRST, FIT, LENGTH, LEVEL, ROOM, Refused, TAG, check};
use crate::players::damages::{Damage, names};
use crate::players::records::{Event, HEAD, JOIN, RECORDS, TRIGGER, length, records, settings_at};
use crate::players::specials::{self, specials};
use crate::reference::{LIMIT, RATE, TIME};
use crate::rust::envelope::{EnvelopeParams, Timing};

/// The numbers that can refuse each record, in the order of the tags.
const REFUSED: [&[u32]; 9] = [
    &[1, 3, 4, 6, 8, 9, 10],
    &[2, 3, 6, 8, 9, 10],
    &[3, 6, 8, 9, 10],
    &[4, 6, 8, 9],
    &[2, 6, 8, 9, 10],
    &[2, 6, 8, 9],
    &[2, 6, 8, 9],
    &[2, 6, 8, 9],
    &[6, 8, 9, 11],
];

/// The places that have a name of their own.
const MARKS: [&str; 57] = [
    "0 voices",
    "1 voice",
    "16 voices",
    "17 voices",
    "48 voices",
    "49 voices",
    "64 voices",
    "65 voices",
    "255 voices",
    "an empty list",
    "1 byte of a head",
    "2 bytes of a head",
    "tag 0",
    "tag 10",
    "tag 11 to 254",
    "tag 255",
    "a first record that is no open and has a code byte without a name",
    "unit 2",
    "unit 3 to 254",
    "unit 255",
    "legato 2",
    "legato 3 to 254",
    "legato 255",
    "restart 2",
    "restart 3 to 254",
    "restart 255",
    "kind 3",
    "kind 4 to 254",
    "kind 255",
    "the voice after the last",
    "voice 64",
    "voice 255",
    "join of no voice",
    "join from no voice",
    "delay over its limit",
    "attack over its limit",
    "hold over its limit",
    "decay over its limit",
    "release over its limit",
    "a rate just over its limit",
    "an infinite rate",
    "a time at its limit",
    "a sum of over 2^32 frames",
    "a sum whose last 32 bits would fit",
    "levels whose last 32 bits would fit",
    "one level short",
    "an output exactly full",
    "an output of 0 bytes",
    "an output of 63 bytes",
    "an output of odd bytes",
    "a list without frames",
    "a record of 0 frames",
    "over 3,072 levels in one record",
    "over 16,384 levels in one record",
    "over 50 records of frames",
    "a stage of 16,384 samples",
    "a stage of 16,385 samples",
];

/// Counts of what was reached, by name.
#[derive(Default)]
pub struct Coverage {
    counts: BTreeMap<String, u64>,
}

/// What there is of a list before the record that is refused, or before its
/// end.
struct Before {
    voices: u8,
    frames: u64,
}

impl Coverage {
    /// One list.
    pub fn add(&mut self, case: &Case, damages: &[Damage]) {
        for damage in damages {
            self.mark(format!("damage: {damage}"));
        }
        self.output(case.out_len);
        let refused = check(&case.list, case.out_len);
        let end = refused.map_or_else(|refused| refused.at, |_| case.list.len());
        let before = self.accepted(&case.list[..end]);
        match refused {
            Ok(_) => self.played(case, &before),
            Err(refused) => self.refused(case, refused, &before),
        }
    }

    fn mark(&mut self, name: impl Into<String>) {
        *self.counts.entry(name.into()).or_default() += 1;
    }

    fn mark_if(&mut self, reached: bool, name: &str) {
        if reached {
            self.mark(name);
        }
    }

    fn output(&mut self, bytes: usize) {
        self.mark_if(bytes == 0, "an output of 0 bytes");
        self.mark_if(bytes == 63, "an output of 63 bytes");
        self.mark_if(bytes % 2 == 1, "an output of odd bytes");
    }

    /// The records of `list`, which are all accepted.
    fn accepted(&mut self, list: &[u8]) -> Before {
        let (mut voices, mut frames, mut blocks) = (0, 0, 0);
        let mut timing = Timing::new(0.0);
        for (tag, body) in records(list) {
            let Some(event) = Event::read(tag, body) else {
                continue;
            };
            self.mark(format!("{} accepted", name(tag)));
            for (kind, field) in specials(tag, body) {
                self.mark(format!("{kind} as {field}"));
            }
            match event {
                Event::Open(opened, of, settings) => {
                    (voices, timing) = (opened, of);
                    self.opened(opened);
                    self.settings(&settings, &timing);
                }
                Event::Settings(_, settings) | Event::SettingsForAll(settings) => {
                    self.settings(&settings, &timing);
                }
                Event::Timing(of) => timing = of,
                Event::Frames(count) => {
                    blocks += 1;
                    frames += u64::from(count);
                    self.block(u64::from(count), stride(voices.into()));
                }
                _ => {}
            }
        }
        self.mark_if(blocks > 50, "over 50 records of frames");
        Before { voices, frames }
    }

    fn opened(&mut self, voices: u8) {
        match voices {
            1 => self.mark("1 voice"),
            _ => self.mark(format!("{voices} voices")),
        }
    }

    fn settings(&mut self, settings: &EnvelopeParams, timing: &Timing) {
        for time in times(settings) {
            self.mark_if(time.to_bits() == LIMIT.to_bits(), "a time at its limit");
            match timing.samples(time, settings.unit) {
                16_384 => self.mark("a stage of 16,384 samples"),
                16_385 => self.mark("a stage of 16,385 samples"),
                _ => {}
            }
        }
    }

    fn block(&mut self, frames: u64, stride: u64) {
        let levels = frames * stride;
        self.mark_if(frames == 0, "a record of 0 frames");
        self.mark_if(levels > 3072, "over 3,072 levels in one record");
        self.mark_if(levels > 16_384, "over 16,384 levels in one record");
    }

    /// A list that was accepted.
    fn played(&mut self, case: &Case, list: &Before) {
        let needed = list.frames * stride(list.voices.into()) * LEVEL as u64;
        let full = case.out_len as u64 == needed && list.frames > 0;
        self.mark_if(full, "an output exactly full");
        self.mark_if(list.frames == 0, "a list without frames");
    }

    /// A list that was refused.
    fn refused(&mut self, case: &Case, refused: Refused, before: &Before) {
        let rest = &case.list[refused.at..];
        let Some(tag) = rest.first() else {
            return self.mark("an empty list");
        };
        let body = rest.get(HEAD..).unwrap_or(&[]);
        let number = refused.number;
        match number {
            FIT => self.unfit(*tag, rest),
            TAG => return self.tag(*tag),
            LENGTH => self.length(*tag, rest),
            FIRST => self.first(*tag, body),
            CODE => self.code(*tag, body),
            1 => self.opened(body[0]),
            2 => self.voice(*tag, body, before.voices),
            TIME | RATE => self.limit(number, *tag, body),
            ROOM => self.room(case, body, before),
            _ => {}
        }
        if usize::from(*tag) <= RECORDS.len() && *tag > 0 {
            self.mark(format!("{} by {number}", name(*tag)));
        }
    }

    fn unfit(&mut self, tag: u8, rest: &[u8]) {
        match rest.len() {
            1 => self.mark("1 byte of a head"),
            2 => self.mark("2 bytes of a head"),
            _ if length(tag).is_some() => self.mark(format!("{}, body cut", name(tag))),
            _ => {}
        }
    }

    fn tag(&mut self, tag: u8) {
        match tag {
            0 | 10 | 255 => self.mark(format!("tag {tag}")),
            _ => self.mark("tag 11 to 254"),
        }
    }

    fn length(&mut self, tag: u8, rest: &[u8]) {
        let given = usize::from(u16::from_le_bytes([rest[1], rest[2]]));
        let Some(length) = length(tag) else { return };
        self.mark_if(given + 1 == length, &format!("{}, one short", name(tag)));
        self.mark_if(given == length + 1, &format!("{}, one long", name(tag)));
    }

    fn first(&mut self, tag: u8, body: &[u8]) {
        let named = length(tag).and_then(|length| Event::read(tag, &body[..length]));
        self.mark_if(
            named.is_none(),
            "a first record that is no open and has a code byte without a name",
        );
    }

    /// The first code byte without a name.
    fn code(&mut self, tag: u8, body: &[u8]) {
        if tag == TRIGGER {
            return self.code_byte("kind", body[1], 3);
        }
        let Some(at) = settings_at(tag) else { return };
        for (name, place) in [("unit", 0), ("legato", 45), ("restart", 46)] {
            if body[at + place] > 1 {
                return self.code_byte(name, body[at + place], 2);
            }
        }
    }

    fn code_byte(&mut self, name: &str, byte: u8, least: u8) {
        if byte == least || byte == 255 {
            self.mark(format!("{name} {byte}"));
        } else {
            self.mark(format!("{name} {} to 254", least + 1));
        }
    }

    fn voice(&mut self, tag: u8, body: &[u8], voices: u8) {
        let named = if tag == JOIN && body[0] < voices {
            body[1]
        } else {
            body[0]
        };
        self.mark_if(named == voices, "the voice after the last");
        self.mark_if(named == 64, "voice 64");
        self.mark_if(named == 255, "voice 255");
        self.mark_if(tag == JOIN && body[0] >= voices, "join of no voice");
        self.mark_if(tag == JOIN && body[0] < voices, "join from no voice");
    }

    fn limit(&mut self, number: u32, tag: u8, body: &[u8]) {
        let event = length(tag).and_then(|length| Event::read(tag, &body[..length]));
        match event {
            Some(Event::Open(_, timing, _) | Event::Timing(timing)) if number == RATE => {
                let rate = timing.sample_rate;
                self.mark_if(rate == f64::INFINITY, "an infinite rate");
                self.mark_if(
                    rate == f64::from(LIMIT).next_up(),
                    "a rate just over its limit",
                );
            }
            Some(
                Event::Open(_, _, settings)
                | Event::Settings(_, settings)
                | Event::SettingsForAll(settings),
            ) => {
                let names = ["delay", "attack", "hold", "decay", "release"];
                for (name, time) in names.into_iter().zip(times(&settings)) {
                    self.mark_if(time > LIMIT, &format!("{name} over its limit"));
                }
            }
            _ => {}
        }
    }

    fn room(&mut self, case: &Case, body: &[u8], before: &Before) {
        let count = u32::from_le_bytes([body[0], body[1], body[2], body[3]]);
        let frames = before.frames + u64::from(count);
        let stride = stride(before.voices.into());
        let room = (case.out_len / LEVEL) as u64;
        self.mark_if(frames * stride == room + 1, "one level short");
        self.mark_if(frames >> 32 > 0, "a sum of over 2^32 frames");
        let wrapped = u64::from(frames as u32) * stride;
        self.mark_if(wrapped <= room, "a sum whose last 32 bits would fit");
        let wrapped = u64::from((frames * stride) as u32);
        self.mark_if(wrapped <= room, "levels whose last 32 bits would fit");
    }

    /// Everything that has to be reached, line by line as it is printed.
    fn wanted() -> Vec<(&'static str, Vec<String>)> {
        let records = || RECORDS.iter().map(|(record, _)| *record);
        let accepted = records().map(|record| format!("{record} accepted"));
        let refused = records().zip(REFUSED).flat_map(|(record, numbers)| {
            let by = move |number| format!("{record} by {number}");
            numbers.iter().map(by)
        });
        let lengths = records().flat_map(|record| {
            let of = move |damaged| format!("{record}, {damaged}");
            ["body cut", "one short", "one long"].map(of)
        });
        let damages = names().map(|damage| format!("damage: {damage}"));
        vec![
            ("records", accepted.collect()),
            ("refusals", refused.collect()),
            ("lengths", lengths.collect()),
            ("places", MARKS.map(String::from).to_vec()),
            ("numbers", wanted_numbers()),
            ("lists", damages.collect()),
        ]
    }

    /// Prints the counts, and answers whether everything was reached.
    #[must_use]
    pub fn print(&self) -> bool {
        let wanted = Self::wanted();
        let mut reached = true;
        for (about, names) in &wanted {
            let counts: Vec<u64> = names.iter().map(|name| self.count(name)).collect();
            println!("{about}: {}", counted(names, &counts));
        }
        for name in wanted.iter().flat_map(|(_, names)| names) {
            if self.count(name) == 0 {
                println!("not reached: {name}");
                reached = false;
            }
        }
        reached
    }

    fn count(&self, name: &str) -> u64 {
        self.counts.get(name).copied().unwrap_or(0)
    }
}

/// Each special number as each of what numbers are, but for an infinite time
/// or rate, which is over its limit.
fn wanted_numbers() -> Vec<String> {
    let mut wanted = Vec::new();
    for (kind, ..) in specials::KINDS {
        for field in specials::FIELDS {
            if kind != "infinity" || !matches!(field, "time" | "rate") {
                wanted.push(format!("{kind} as {field}"));
            }
        }
    }
    wanted
}

/// The name of the record with this tag, which has to be one.
fn name(tag: u8) -> &'static str {
    RECORDS[usize::from(tag) - 1].0
}

fn times(p: &EnvelopeParams) -> [f32; 5] {
    [p.delay, p.attack, p.hold, p.decay, p.release]
}

#[cfg(test)]
mod tests {
    use super::*;
    use crate::fixed::{RATE_1000, SAMPLE};

    #[test]
    fn what_a_list_reaches() {
        let mut coverage = Coverage::default();
        let mut list = Event::Open(17, RATE_1000, SAMPLE).record();
        list.extend(Event::Frames(2).record());
        list.extend(Event::Join(3, 17).record());
        let case = Case {
            name: String::new(),
            list,
            out_len: 511,
        };
        coverage.add(&case, &["a byte changed"]);
        let reached: Vec<(&str, u64)> = coverage
            .counts
            .iter()
            .map(|(name, count)| (name.as_str(), *count))
            .collect();
        let expected = [
            ("17 voices", 1),
            ("an output of odd bytes", 1),
            ("damage: a byte changed", 1),
            ("frames accepted", 1),
            ("join by 2", 1),
            ("join from no voice", 1),
            ("open accepted", 1),
            ("the voice after the last", 1),
        ];
        assert_eq!(reached, expected);
    }

    #[test]
    fn nothing_is_wanted_twice() {
        let wanted = Coverage::wanted().into_iter();
        let mut wanted: Vec<String> = wanted.flat_map(|(_, names)| names).collect();
        let all = wanted.len();
        wanted.sort();
        wanted.dedup();
        assert_eq!(wanted.len(), all);
    }
}
