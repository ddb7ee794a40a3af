//! What can be wrong with a list, done to one that is accepted. A record that
//! a damage needs and the list may lack is put in at a place of its own.

use crate::players::records::{
    Event, FRAMES, HEAD, JOIN, OPEN, RELEASE, RESET, SETTINGS, SETTINGS_FOR_ALL, TIMING, TRIGGER,
    length, record, settings_at, timing_at,
};
use crate::random::Random;
use crate::rust::envelope::{EnvelopeParams, Timing, Trigger};
use crate::settings::{rate_over, time_over};

/// The name of a damage.
pub type Damage = &'static str;

/// A list's records, and the voices that it opens.
struct Records<'a> {
    records: &'a mut Vec<Vec<u8>>,
    voices: u8,
}

type Does = fn(&mut Random, &mut Records);

const DAMAGES: [(Damage, Does); 24] = [
    ("another tag", another_tag),
    ("a body one byte short", one_short),
    ("a body one byte long", one_long),
    ("another length", another_length),
    ("a head cut", head_cut),
    ("a body cut", body_cut),
    ("an open in the middle", open_again),
    ("the open left out", open_left_out),
    ("a code byte in place of the open", code_first),
    ("a code byte of settings", settings_code),
    ("a trigger of no kind", trigger_code),
    ("too many voices", too_many_voices),
    ("a rate over its limit", rate),
    ("a time over its limit", time),
    ("a voice that there is not", no_voice),
    ("a count of 2^32 - 1", largest_count),
    ("a count that wraps the sum", wrapped_sum),
    ("a count that wraps the levels", wrapped_levels),
    ("several things in one record", several),
    ("a byte changed", byte_changed),
    ("a byte left out", byte_left_out),
    ("a byte put in", byte_put_in),
    ("bytes at random", any_bytes),
    ("no bytes", no_bytes),
];

/// The names of all damages.
pub fn names() -> impl Iterator<Item = Damage> {
    DAMAGES.into_iter().map(|(name, _)| name)
}

/// Damages a list that opens so many voices, and answers how.
pub fn damage(random: &mut Random, records: &mut Vec<Vec<u8>>, voices: u8) -> Damage {
    // The order of the tests is seen where several things are wrong at once.
    let (name, does) = match random.below(10) {
        0 => ("several things in one record", several as Does),
        _ => random.choose(&DAMAGES),
    };
    does(random, &mut Records { records, voices });
    name
}

impl Records<'_> {
    /// Some record, or none if there is none.
    fn any(&mut self, random: &mut Random) -> Option<(usize, &mut Vec<u8>)> {
        let at = random.below(self.records.len().max(1) as u64) as usize;
        self.records.get_mut(at).map(|record| (at, record))
    }

    /// Puts a record in behind the first.
    fn put(&mut self, random: &mut Random, record: Vec<u8>) {
        let at = self.place(random);
        self.records.insert(at, record);
    }

    /// A place behind the first record, if there is one.
    fn place(&self, random: &mut Random) -> usize {
        let records = self.records.len();
        records.min(1 + random.below(records.max(1) as u64) as usize)
    }

    /// Some byte of all, as its record and its place there.
    fn byte(&mut self, random: &mut Random) -> Option<(&mut Vec<u8>, usize)> {
        let (_, record) = self.any(random)?;
        let at = random.below(record.len().max(1) as u64) as usize;
        (at < record.len()).then_some((record, at))
    }

    /// The frames of the records before a place.
    fn frames_before(&self, place: usize) -> u64 {
        let frames = self.records[..place].iter().filter_map(|record| {
            let (tag, body) = record.split_at_checked(HEAD)?;
            let count = body.try_into().ok().map(u32::from_le_bytes)?;
            (tag[0] == FRAMES).then_some(u64::from(count))
        });
        frames.sum()
    }
}

fn settings() -> EnvelopeParams {
    EnvelopeParams::AMP
}

fn timing() -> Timing {
    Timing::new(1000.0)
}

/// A record of this tag that the list would accept, but for 0 voices.
fn good(tag: u8) -> Vec<u8> {
    let event = match tag {
        OPEN => Event::Open(3, timing(), settings()),
        SETTINGS => Event::Settings(0, settings()),
        SETTINGS_FOR_ALL => Event::SettingsForAll(settings()),
        TIMING => Event::Timing(timing()),
        TRIGGER => Event::Trigger(0, Trigger::New),
        RELEASE => Event::Release(0),
        RESET => Event::Reset(0),
        JOIN => Event::Join(0, 0),
        _ => Event::Frames(0),
    };
    event.record()
}

/// Changes the list's open, or puts another record of `tags` in, which is
/// changed likewise.
fn open_or(random: &mut Random, to: &mut Records, tags: &[u8], does: impl FnOnce(&mut Vec<u8>)) {
    let tag = random.choose(tags);
    match to.records.first_mut() {
        Some(open) if tag == OPEN => does(open),
        _ => {
            let mut record = good(tag);
            does(&mut record);
            to.put(random, record);
        }
    }
}

/// Where settings begin in a record, and whether it is whole.
fn settings_in(record: &[u8]) -> Option<usize> {
    let at = HEAD + settings_at(*record.first()?)?;
    (record.len() >= at + 47).then_some(at)
}

fn timing_in(record: &[u8]) -> Option<usize> {
    let at = HEAD + timing_at(*record.first()?)?;
    (record.len() >= at + 24).then_some(at)
}

fn another_tag(random: &mut Random, to: &mut Records) {
    let tag = match random.below(4) {
        0 => 0,
        1 => 10,
        2 => 255,
        _ => 11 + random.below(244) as u8,
    };
    if let Some((record, _)) = to.byte(random) {
        record[0] = tag;
    }
}

/// A record of any tag with a body of another length, in place of the open or
/// put in.
fn of_length(random: &mut Random, to: &mut Records, change: fn(&mut Vec<u8>)) {
    let tag = 1 + random.below(9) as u8;
    let mut body = good(tag)[HEAD..].to_vec();
    change(&mut body);
    let record = record(tag, &body);
    match to.records.first_mut() {
        Some(open) if tag == OPEN => *open = record,
        _ => to.put(random, record),
    }
}

fn one_short(random: &mut Random, to: &mut Records) {
    of_length(random, to, |body| {
        body.pop();
    });
}

fn one_long(random: &mut Random, to: &mut Records) {
    of_length(random, to, |body| body.push(0));
}

/// The two bytes of a length, and no more.
fn another_length(random: &mut Random, to: &mut Records) {
    let length = match random.below(5) {
        0 => 0,
        1 => u16::MAX,
        2 => 256,
        3 => random.below(300) as u16,
        _ => random.bits() as u16,
    };
    match to.byte(random) {
        Some((record, _)) if record.len() >= HEAD => {
            record[1..HEAD].copy_from_slice(&length.to_le_bytes());
        }
        _ => {}
    }
}

/// The list ends within a head.
fn head_cut(random: &mut Random, to: &mut Records) {
    let left = 1 + random.below(2) as usize;
    if let Some((at, record)) = to.any(random) {
        record.truncate(left);
        to.records.truncate(at + 1);
    }
}

/// The list ends within the body of a record of any tag.
fn body_cut(random: &mut Random, to: &mut Records) {
    let tag = 1 + random.below(9) as u8;
    let place = if tag == OPEN { 0 } else { to.place(random) };
    let mut record = good(tag);
    let body = record.len() - HEAD;
    record.truncate(HEAD + random.below(body as u64) as usize);
    to.records.truncate(place);
    to.records.push(record);
}

fn open_again(random: &mut Random, to: &mut Records) {
    let record = match to.records.first() {
        Some(open) if random.coin() => open.clone(),
        _ => good(OPEN),
    };
    to.put(random, record);
}

fn open_left_out(random: &mut Random, to: &mut Records) {
    if !to.records.is_empty() {
        to.records.remove(0);
    }
    if random.coin() {
        let tag = 2 + random.below(8) as u8;
        to.records.insert(0, good(tag));
    }
}

/// In place of the open a record whose code byte has no name either.
fn code_first(random: &mut Random, to: &mut Records) {
    let mut record = good(random.choose(&[SETTINGS, SETTINGS_FOR_ALL, TRIGGER]));
    if let Some(last) = record.last_mut() {
        *last = 3 + random.below(253) as u8;
    }
    match to.records.first_mut() {
        Some(open) => *open = record,
        None => to.records.push(record),
    }
}

/// A code byte from `least` to 255, those two most often.
fn code(random: &mut Random, least: u8) -> u8 {
    match random.below(4) {
        0 => least,
        1 => 255,
        _ => least + random.below(256 - u64::from(least)) as u8,
    }
}

fn settings_code(random: &mut Random, to: &mut Records) {
    let (code, place) = (code(random, 2), random.choose(&[0, 45, 46]));
    open_or(random, to, &[OPEN, SETTINGS, SETTINGS_FOR_ALL], |record| {
        if let Some(at) = settings_in(record) {
            record[at + place] = code;
        }
    });
}

fn trigger_code(random: &mut Random, to: &mut Records) {
    let voice = random.below(to.voices.max(1).into()) as u8;
    let body = [voice, code(random, 3)];
    to.put(random, record(TRIGGER, &body));
}

fn too_many_voices(random: &mut Random, to: &mut Records) {
    let voices = match random.below(3) {
        0 => 65,
        1 => 255,
        _ => 65 + random.below(191) as u8,
    };
    match to.records.first_mut() {
        Some(open) if open.len() > HEAD => open[HEAD] = voices,
        _ => {}
    }
}

fn rate(random: &mut Random, to: &mut Records) {
    let rate = rate_over(random).to_le_bytes();
    open_or(random, to, &[OPEN, TIMING], |record| {
        if let Some(at) = timing_in(record) {
            record[at..at + 8].copy_from_slice(&rate);
        }
    });
}

fn time(random: &mut Random, to: &mut Records) {
    let time = time_over(random).to_le_bytes();
    let number: usize = random.choose(&[0, 1, 2, 3, 5]);
    open_or(random, to, &[OPEN, SETTINGS, SETTINGS_FOR_ALL], |record| {
        if let Some(at) = settings_in(record) {
            record[at + 1 + 4 * number..][..4].copy_from_slice(&time);
        }
    });
}

/// A record that names a voice, which is not there.
fn no_voice(random: &mut Random, to: &mut Records) {
    let voice = match random.below(4) {
        0 => to.voices,
        1 => 255,
        2 => 64,
        _ => to.voices.saturating_add(random.below(200) as u8),
    };
    let mut record = good(random.choose(&[SETTINGS, TRIGGER, RELEASE, RESET, JOIN, JOIN, JOIN]));
    let second = record[0] == JOIN && random.coin();
    record[HEAD + usize::from(second)] = voice;
    to.put(random, record);
}

fn put_frames(random: &mut Random, to: &mut Records, place: usize, count: u64) {
    // Now and then what is left of a count that is too large for a record.
    let count = u32::try_from(count).unwrap_or(random.bits() as u32);
    to.records.insert(place, Event::Frames(count).record());
}

fn largest_count(random: &mut Random, to: &mut Records) {
    let place = to.place(random);
    put_frames(random, to, place, u32::MAX.into());
}

/// The sum's last 32 bits are those of a few frames.
fn wrapped_sum(random: &mut Random, to: &mut Records) {
    let place = to.place(random);
    let before = to.frames_before(place);
    let count = (1_u64 << 32).saturating_sub(before) + random.below(3);
    put_frames(random, to, place, count);
}

/// The last 32 bits of the sum times the stride, or times its bytes, are those
/// of a few levels.
fn wrapped_levels(random: &mut Random, to: &mut Records) {
    let place = to.place(random);
    let before = to.frames_before(place);
    let stride = u64::from(to.voices).div_ceil(16).max(1) * 16;
    let each = random.choose(&[stride, 4 * stride]);
    // A stride of 48 divides no power of two, and comes close.
    let times = 1 + random.below(each - 1);
    let sum = (times << 32).div_ceil(each) + random.below(2);
    put_frames(random, to, place, sum.saturating_sub(before));
}

/// A record of any tag, those with settings most often, in any place in which
/// everything that can be wrong is wrong or not.
fn several(random: &mut Random, to: &mut Records) {
    let tag = match random.below(6) {
        0 | 1 => OPEN,
        2 => SETTINGS,
        _ => 1 + random.below(9) as u8,
    };
    let mut body = good(tag)[HEAD..].to_vec();
    if let (Some(at), true) = (settings_at(tag), random.coin()) {
        body[at + random.choose(&[0, 45, 46])] = 2 + random.below(254) as u8;
    }
    if let (Some(at), true) = (settings_at(tag), random.coin()) {
        body[at + 1..at + 5].copy_from_slice(&time_over(random).to_le_bytes());
    }
    if let (Some(at), true) = (timing_at(tag), random.coin()) {
        body[at..at + 8].copy_from_slice(&rate_over(random).to_le_bytes());
    }
    if random.coin() && !matches!(tag, SETTINGS_FOR_ALL | TIMING) {
        body[0] = 65 + random.below(191) as u8;
    }
    if random.coin() && matches!(tag, TRIGGER | JOIN | FRAMES) {
        body[1] = 65 + random.below(191) as u8;
    }
    match random.below(6) {
        0 => body.push(0),
        1 => body.truncate(length(tag).unwrap_or(1) - 1),
        _ => {}
    }
    let mut record = record(tag, &body);
    if random.below(6) == 0 {
        record[0] = random.choose(&[0, 10, 255]);
    }
    let place = if tag == OPEN && random.coin() {
        0
    } else {
        random.below(to.records.len() as u64 + 1) as usize
    };
    to.records.insert(place, record);
    if random.below(6) == 0 {
        to.records.truncate(place + 1);
        to.records[place].pop();
    }
}

fn byte_changed(random: &mut Random, to: &mut Records) {
    let byte = match random.below(3) {
        0 => random.below(12) as u8,
        _ => random.bits() as u8,
    };
    if let Some((record, at)) = to.byte(random) {
        record[at] = byte;
    }
}

fn byte_left_out(random: &mut Random, to: &mut Records) {
    if let Some((record, at)) = to.byte(random) {
        record.remove(at);
    }
}

fn byte_put_in(random: &mut Random, to: &mut Records) {
    let byte = random.below(12) as u8;
    if let Some((record, at)) = to.byte(random) {
        record.insert(at, byte);
    }
}

/// Behind the records up to some place only bytes that mean nothing.
fn any_bytes(random: &mut Random, to: &mut Records) {
    let place = random.below(to.records.len() as u64 + 1) as usize;
    to.records.truncate(place);
    let bytes = 1 + random.below(60);
    let bytes = (0..bytes).map(|_| match random.below(3) {
        0 => random.bits() as u8,
        _ => random.below(10) as u8,
    });
    let bytes = bytes.collect();
    to.records.push(bytes);
}

fn no_bytes(_: &mut Random, to: &mut Records) {
    to.records.clear();
}
