//! Random lists: events that follow from where the Rust's voices stand, as the
//! bank's calls are drawn, and then for many lists damage, or an output that is
//! too short.

use crate::banks;
use crate::banks::random::Plan;
use crate::players::Case;
use crate::players::checks::LEVEL;
use crate::players::damages::{Damage, damage};
use crate::players::drafts::Draft;
use crate::players::records::Event;
use crate::players::specials;
use crate::random::Random;
use crate::reference::{ACCEPTED, fresh_refusal};
use crate::rust::envelope::{EnvelopeParams, Timing, Trigger};
use crate::series::Lists;
use crate::settings::{self, Style};

/// The most bytes of an output.
pub const LONGEST: usize = 8 << 20;

/// The most events of a list beside its chord.
const EVENTS: u64 = 40;

/// Numbers of voices at which something changes.
const COUNTS: [u8; 11] = [0, 1, 15, 16, 17, 32, 33, 48, 49, 63, 64];

/// For a plan without damaged calls.
const NEVER: u64 = u64::MAX >> 1;

/// A list, and what was done to it.
pub struct Drawn {
    pub case: Case,
    pub damages: Vec<Damage>,
}

impl Drawn {
    /// A list to which nothing was done.
    #[must_use]
    pub fn undamaged(case: Case) -> Self {
        Self {
            case,
            damages: Vec::new(),
        }
    }
}

/// The lists that follow from `seed`.
#[must_use]
pub fn lists(seed: u64) -> Lists<Drawn> {
    Lists::new(seed, "players", drawn)
}

fn plan(random: &mut Random) -> Plan {
    let (style, levels) = match random.below(1000) {
        0 => (Style::Long, 1_900_000),
        1..6 => (Style::Segments, 700_000),
        6..12 => (Style::Short, 400_000),
        12..60 => (Style::Tiny, 4_000),
        60..360 => (Style::Odd, 4_000),
        _ => (Style::Short, 4_000),
    };
    Plan {
        style,
        levels,
        damaged: NEVER,
    }
}

fn drawn(random: &mut Random, name: String) -> Drawn {
    let draft = draft(random);
    let damaged = random.coin();
    let out_len = output(random, draft.levels(), damaged);
    let mut records = draft.records();
    let mut damages = Vec::new();
    if damaged {
        let voices = draft.bank().voices() as u8;
        for _ in 0..1 + random.below(8) / 6 {
            damages.push(damage(random, &mut records, voices));
        }
    }
    Drawn {
        case: Case {
            name,
            list: records.concat(),
            out_len: out_len.min(LONGEST),
        },
        damages,
    }
}

/// A list that is accepted.
fn draft(random: &mut Random) -> Draft {
    let plan = plan(random);
    let mut draft = opened(random, plan.style);
    if random.below(3) == 0 {
        chord(random, plan.style, &mut draft);
    }
    let specials = random.below(4) == 0;
    // Mostly some events, now and then none or many short blocks.
    let events = match random.below(40) {
        0 => 0,
        1 => 6 * EVENTS,
        _ => random.below(EVENTS),
    };
    for _ in 0..events {
        let call = banks::random::call(random, plan, draft.bank(), draft.levels());
        if let Some(event) = draft.event(&call) {
            let changed = specials && random.below(3) == 0;
            draft.push(if changed {
                specials::with_one(random, event)
            } else {
                event
            });
        }
    }
    draft
}

fn opened(random: &mut Random, style: Style) -> Draft {
    let voices = match random.below(16) {
        0..4 => random.choose(&COUNTS),
        // Long blocks of many voices would take their time.
        _ if matches!(style, Style::Segments | Style::Long) => 1 + random.below(18) as u8,
        4..9 => 1 + random.below(8) as u8,
        9..13 => 1 + random.below(20) as u8,
        _ => 1 + random.below(64) as u8,
    };
    let timing = settings::timing(random, style);
    let settings = settings::settings(random, style);
    let mut opening = Event::Open(voices, timing, settings);
    if random.below(4) == 0 {
        opening = specials::with_one(random, opening);
    }
    match opening {
        Event::Open(voices, timing, settings) if fresh_refusal(&settings, &timing) == ACCEPTED => {
            Draft::open(voices, timing, settings)
        }
        _ => Draft::open(voices, Timing::new(1000.0), EnvelopeParams::AMP),
    }
}

/// A note on every voice, many with settings of their own.
fn chord(random: &mut Random, style: Style, draft: &mut Draft) {
    let own = random.coin();
    for voice in 0..draft.bank().voices() as u8 {
        if own && random.coin() {
            let settings = settings::settings(random, style);
            draft.push(Event::Settings(voice, settings));
        }
        draft.push(Event::Trigger(voice, Trigger::New));
    }
}

/// The bytes of an output for so many levels: with room for them, exactly, and
/// where the list isn't damaged now and then too short.
fn output(random: &mut Random, levels: usize, damaged: bool) -> usize {
    let exactly = levels * LEVEL;
    let more = |random: &mut Random, most| exactly + random.below(most) as usize;
    match random.below(24) {
        0 if !damaged => exactly.saturating_sub(1),
        1 if !damaged => exactly.saturating_sub(LEVEL),
        2 if !damaged => random.below(exactly as u64 + 1) as usize,
        3 => 63,
        4 => 0,
        5..10 => exactly,
        10..13 => exactly + 1 + random.below(3) as usize,
        13..20 => more(random, 300),
        _ => more(random, 9000),
    }
}

#[cfg(test)]
mod tests {
    use super::*;
    use crate::players::checks::check;
    use crate::series::tests::follow_their_seed;

    #[test]
    fn a_seed_makes_the_same_lists() {
        follow_their_seed(lists, |drawn| drawn.case.list);
    }

    #[test]
    fn what_is_not_damaged_is_accepted_where_it_has_room() {
        for drawn in lists(3).take(400) {
            assert!(drawn.case.out_len <= LONGEST);
            if drawn.damages.is_empty() {
                assert!(check(&drawn.case.list, LONGEST).is_ok());
            }
        }
    }
}
