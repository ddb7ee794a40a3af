//! Random lists of calls on a bank. Each call is chosen by where the Rust's
//! voices stand, so that blocks end at, before and after the ends of their
//! segments, and changes meet stages in their middle. Some lists are damaged:
//! many of their calls are refused.

mod chords;

use crate::banks::calls::{Call, LONGEST};
use crate::banks::lists::{Draft, List};
use crate::calls::TRIGGERS;
use crate::random::Random;
use crate::random_lists::{changed_settings, changed_timing, exceed, fresh};
use crate::rust::envelope::{Envelope, EnvelopeBank, EnvelopeParams, Timing, Trigger};
use crate::series::Lists;
use crate::settings::{self, Style};

/// The most calls of a list beside the notes on all voices and the readings.
const CALLS: u64 = 44;

/// One of so many calls is a chord.
const CHORDS: u64 = 12;

/// A lead up to this is held against a copy that is run on.
const SHORT_LEAD: u64 = 500;

/// The longest block, in frames.
const LONGEST_BLOCK: u64 = 4096;

/// Numbers of voices at which something changes.
const COUNTS: [u64; 11] = [0, 1, 15, 16, 17, 32, 33, 48, 49, 63, 64];

/// The lists that follow from `seed`.
#[must_use]
pub fn lists(seed: u64) -> Lists<List> {
    Lists::new(seed, "banks", list)
}

/// What a list is made of.
#[derive(Clone, Copy)]
pub struct Plan {
    pub style: Style,
    /// The levels after which its blocks stay short.
    pub levels: usize,
    /// One call in so many is damaged.
    pub damaged: u64,
}

fn plan(random: &mut Random) -> Plan {
    let (style, levels) = match random.below(1000) {
        0 => (Style::Long, 4_000_000),
        1..8 => (Style::Segments, 700_000),
        8..16 => (Style::Short, 400_000),
        16..60 => (Style::Tiny, 8_000),
        60..360 => (Style::Odd, 8_000),
        _ => (Style::Short, 8_000),
    };
    Plan {
        style,
        levels,
        damaged: if random.below(5) == 0 { 3 } else { 40 },
    }
}

fn list(random: &mut Random, name: String) -> List {
    let plan = plan(random);
    let mut draft = Draft::new(name);
    let opening = opening(random, plan);
    draft.ask(opening, SHORT_LEAD);
    if random.below(3) == 0 {
        notes(random, plan, &mut draft);
    }
    for _ in 0..random.below(CALLS) {
        let call = match random.below(CHORDS) {
            0 => chords::chord(random, plan, draft.bank()),
            _ => call(random, plan, draft.bank(), draft.levels()),
        };
        draft.ask(call, SHORT_LEAD);
        if random.coin() {
            let voice = voice(random, plan, draft.bank());
            draft.ask(Call::Read(voice), SHORT_LEAD);
        }
    }
    draft.close()
}

/// The opening of a list.
pub fn opening(random: &mut Random, plan: Plan) -> Call {
    let (settings, timing) = fresh(random, plan.style);
    let voices = match random.below(16) {
        0 if random.below(4) == 0 => 65,
        0 if random.coin() => random.u64_of_any_length(),
        0..3 => random.choose(&COUNTS),
        // Long blocks of many voices would take their time.
        _ if matches!(plan.style, Style::Segments | Style::Long) => 1 + random.below(18),
        3..9 => 1 + random.below(8),
        9..13 => 1 + random.below(20),
        _ => 1 + random.below(64),
    };
    Call::Open(voices, settings, timing)
}

/// A note on every voice, many with settings of their own.
fn notes(random: &mut Random, plan: Plan, draft: &mut Draft) {
    let own = random.coin();
    for voice in 0..draft.bank().voices() as u64 {
        if own && random.coin() {
            let settings = settings::settings(random, plan.style);
            draft.ask(Call::Settings(voice, settings), SHORT_LEAD);
        }
        draft.ask(Call::Trigger(voice, Trigger::New), SHORT_LEAD);
    }
}

/// A voice's number: of the first few, the last or any, and of a damaged call
/// mostly none that there is.
pub fn voice(random: &mut Random, plan: Plan, bank: &EnvelopeBank) -> u64 {
    let voices = bank.voices() as u64;
    if voices == 0 || random.below(plan.damaged) == 0 {
        return no_voice(random, voices);
    }
    match random.below(8) {
        0 => 0,
        1 => voices - 1,
        2 | 3 => random.below(voices.min(4)),
        _ => random.below(voices),
    }
}

/// A voice's number, mostly none that there is.
fn no_voice(random: &mut Random, voices: u64) -> u64 {
    match random.below(10) {
        0..3 => voices,
        3 => voices + random.below(70),
        4 => 63,
        5 => 64,
        6 => random.u64_of_any_length(),
        // The lower half alone would be a voice.
        7 => ((1 + random.below(5)) << 32) + random.below(voices.max(1)),
        8 => u64::MAX,
        _ => u64::MAX - random.below(66),
    }
}

/// The next call on the bank but a chord. It has handed out so many levels.
pub fn call(random: &mut Random, plan: Plan, bank: &EnvelopeBank, levels: usize) -> Call {
    let style = plan.style;
    let room = plan.levels.saturating_sub(levels) / bank.stride();
    let process = |random: &mut Random, envelope: Option<&Envelope>| {
        process(random, plan, bank, envelope, room as u64)
    };
    if bank.voices() == 0 && random.coin() {
        return process(random, None);
    }
    let named = voice(random, plan, bank);
    let envelope = (named < bank.voices() as u64).then(|| bank.voice(named as usize));
    let envelope = envelope.as_ref();
    if envelope.is_some_and(Envelope::is_idle) && random.coin() {
        return Call::Trigger(named, random.choose(&TRIGGERS));
    }
    // Long stages need their frames before something else ends them.
    if matches!(style, Style::Segments | Style::Long) && random.coin() {
        return process(random, envelope);
    }
    match random.below(100) {
        0..34 => process(random, envelope),
        34..47 => Call::Settings(named, settings(random, plan, envelope)),
        47..53 => Call::SettingsForAll(settings(random, plan, envelope)),
        53..60 => Call::Timing(timing(random, plan, envelope)),
        60..78 => Call::Trigger(named, random.choose(&TRIGGERS)),
        78..85 => Call::Release(named),
        85..88 => Call::Reset(named),
        88.. if random.below(10) == 0 => Call::Join(named, named),
        _ => Call::Join(named, voice(random, plan, bank)),
    }
}

fn settings(random: &mut Random, plan: Plan, envelope: Option<&Envelope>) -> EnvelopeParams {
    let mut settings = match envelope {
        Some(envelope) => changed_settings(random, plan.style, envelope),
        None => settings::settings(random, plan.style),
    };
    if random.below(2 * plan.damaged) == 0 {
        exceed(random, &mut settings);
    }
    settings
}

fn timing(random: &mut Random, plan: Plan, envelope: Option<&Envelope>) -> Timing {
    match envelope {
        Some(envelope) => changed_timing(random, plan.style, envelope),
        None => settings::timing(random, plan.style),
    }
}

/// A block, of a damaged call mostly not of whole frames, with room for so
/// many of them.
fn process(
    random: &mut Random,
    plan: Plan,
    bank: &EnvelopeBank,
    envelope: Option<&Envelope>,
    room: u64,
) -> Call {
    let stride = bank.stride() as u64;
    let whole = frames(random, plan.style, envelope, room) * stride;
    let levels = if random.below(plan.damaged) == 0 {
        match random.below(4) {
            0 => whole.saturating_sub(1),
            1 => whole + 1,
            2 => random.below(4 * stride),
            _ => whole + random.below(stride),
        }
    } else {
        whole
    };
    Call::Process(levels.min(u64::from(LONGEST)) as u32)
}

/// How many frames: a few mostly, and the ends of a voice's segment and stage,
/// exactly, one less and one more.
fn frames(random: &mut Random, style: Style, envelope: Option<&Envelope>, room: u64) -> u64 {
    let inside = envelope.map(Envelope::inside);
    let (left, rest) = inside.map_or((1, 1), |inside| (u64::from(inside.left), inside.rest));
    let count = match random.below(40) {
        0 => 0,
        1..4 => 1,
        4..6 => 2,
        6..14 => random.below(12),
        14..22 => (left + random.below(3)).saturating_sub(1),
        22..29 => (rest + random.below(3)).saturating_sub(1),
        29..33 => random.below(200),
        33 => random.below(LONGEST_BLOCK + 1),
        34 if random.coin() => LONGEST_BLOCK,
        34.. if matches!(style, Style::Segments | Style::Long) => LONGEST_BLOCK,
        _ => random.below(20),
    };
    // A segment of a long stage is reached by several blocks.
    let count = match style {
        Style::Segments | Style::Long => count.min(LONGEST_BLOCK),
        _ => count,
    };
    if count > LONGEST_BLOCK || count > room {
        random.below(8)
    } else {
        count
    }
}

#[cfg(test)]
mod tests {
    use super::*;
    use crate::banks::calls::MOST_ENTRIES;
    use crate::replay::Asked;
    use crate::series::tests::follow_their_seed;

    #[test]
    fn a_seed_makes_the_same_lists() {
        follow_their_seed(lists, |list| list.call_bytes());
    }

    #[test]
    fn lists_keep_to_the_protocol() {
        for list in lists(3).take(400) {
            assert!(matches!(list.steps[0].call, Call::Open(..)));
            for step in &list.steps {
                assert!(step.call.levels() <= LONGEST as usize);
                if let Call::Chord(voices, _) = &step.call {
                    assert!(voices.len() <= MOST_ENTRIES);
                }
            }
            let levels: usize = list.steps.iter().map(|step| step.call.levels()).sum();
            assert_eq!(levels, list.levels.bank.len());
            assert_eq!(levels, list.levels.histories.len());
            assert_eq!(levels, list.levels.again.len());
        }
    }
}
