//! Random lists of calls. Each call is chosen by where the Rust's envelope
//! stands, so that blocks end at, before and after the ends of segments and
//! stages, and changes meet stages in their middle.

use crate::calls::{Call, LONGEST, Note};
use crate::lists::List;
use crate::random::Random;
use crate::reference;
use crate::rust::envelope::{Envelope, EnvelopeParams, Stage, Timing, Trigger};
use crate::series::Lists;
use crate::settings::{self, Style};

/// The most calls of a list.
const CALLS: u64 = 60;

/// A lead up to this is always held against a copy that is run on; a longer
/// one only now and then, since it takes its time.
const SHORT_LEAD: u64 = 500;

/// The lists that follow from `seed`.
#[must_use]
pub fn lists(seed: u64) -> Lists<List> {
    Lists::new(seed, "lists", list)
}

/// The style of a list, with the levels after which its blocks stay short.
fn style(random: &mut Random) -> (Style, usize) {
    match random.below(1000) {
        0..4 => (Style::Long, 700_000),
        4..64 => (Style::Segments, 120_000),
        64..110 => (Style::Tiny, 4_000),
        110..430 => (Style::Odd, 8_000),
        _ => (Style::Short, 4_000),
    }
}

fn list(random: &mut Random, name: String) -> List {
    let (style, levels) = style(random);
    let mut list = List::new(name);
    let (settings, timing) = fresh(random, style);
    list.ask(Call::Fresh(settings, timing), SHORT_LEAD);
    for _ in 0..random.below(CALLS) {
        let room = levels.saturating_sub(list.levels.len());
        let call = call(random, style, list.envelope(), room);
        let any = random.below(64) == 0;
        list.ask(call, if any { u64::MAX } else { SHORT_LEAD });
    }
    list
}

/// Settings and timing to begin with, either of them over its limit now and
/// then.
pub fn fresh(random: &mut Random, style: Style) -> (EnvelopeParams, Timing) {
    let mut settings = settings::settings(random, style);
    let mut timing = settings::timing(random, style);
    if random.below(25) == 0 {
        timing.sample_rate = settings::rate_over(random);
    }
    if random.below(25) == 0 {
        exceed(random, &mut settings);
    }
    (settings, timing)
}

/// Sets one of the times over the limit.
pub fn exceed(random: &mut Random, p: &mut EnvelopeParams) {
    let over = settings::time_over(random);
    match random.below(5) {
        0 => p.delay = over,
        1 => p.attack = over,
        2 => p.hold = over,
        3 => p.decay = over,
        _ => p.release = over,
    }
}

/// The next call on `envelope`, with room for so many levels.
fn call(random: &mut Random, style: Style, envelope: &Envelope, room: usize) -> Call {
    if envelope.is_idle() && random.coin() {
        return Call::Trigger(random.choose(&[Trigger::New, Trigger::Retrigger, Trigger::Legato]));
    }
    // Long stages need their frames before something else ends them.
    if matches!(style, Style::Segments | Style::Long) && random.coin() {
        return Call::Process(frames(random, style, envelope, room));
    }
    if random.below(24) == 0 {
        return Call::Note(note(random, style, envelope, room));
    }
    match random.below(100) {
        0..36 => Call::Process(frames(random, style, envelope, room)),
        36..46 => Call::NextLevel,
        46..63 => Call::Settings(changed_settings(random, style, envelope)),
        63..71 => Call::Timing(changed_timing(random, style, envelope)),
        71..78 => Call::Trigger(Trigger::New),
        78..85 => Call::Trigger(Trigger::Retrigger),
        85..91 => Call::Trigger(Trigger::Legato),
        91..98 => Call::Release,
        _ => Call::Reset,
    }
}

/// A note whose settings or timing are over their limits now and then.
fn note(random: &mut Random, style: Style, envelope: &Envelope, room: usize) -> Note {
    Note {
        trigger: random.choose(&[Trigger::New, Trigger::Retrigger, Trigger::Legato]),
        frames: frames(random, style, envelope, room),
        settings: changed_settings(random, style, envelope),
        timing: changed_timing(random, style, envelope),
    }
}

/// The length of a block: short ones mostly, and the ends of the present
/// segment and stage, exactly, one less and one more.
fn frames(random: &mut Random, style: Style, envelope: &Envelope, room: usize) -> u32 {
    let inside = envelope.inside();
    let count = match random.below(40) {
        0 | 1 => 0,
        2..6 => 1,
        6 | 7 => 2,
        8..16 => random.below(12),
        16..23 => (u64::from(inside.left) + random.below(3)).saturating_sub(1),
        23..30 => (inside.rest + random.below(3)).saturating_sub(1),
        30..33 => random.below(200),
        33 if random.below(8) == 0 => random.below(u64::from(LONGEST) + 1),
        34 if random.below(20) == 0 => u64::from(LONGEST),
        33..37 if style == Style::Segments => random.below(20_000),
        33.. if style == Style::Long => u64::from(LONGEST),
        _ => random.below(6),
    };
    let count = if style == Style::Long {
        count.min(u64::from(LONGEST))
    } else {
        count
    };
    if count > u64::from(LONGEST) || count > room as u64 {
        random.below(8) as u32
    } else {
        count as u32
    }
}

/// New settings for `envelope`, many of them about its present stage.
pub fn changed_settings(random: &mut Random, style: Style, envelope: &Envelope) -> EnvelopeParams {
    let mut settings = *envelope.params();
    match random.below(20) {
        0 => {}
        1..4 => settings = settings::settings(random, style),
        4..10 => around_elapsed(random, envelope, &mut settings),
        10 => exceed(random, &mut settings),
        _ => {
            for _ in 0..=random.below(3) {
                let number = random.below(14);
                settings::change(random, style, &mut settings, number);
            }
        }
    }
    settings
}

/// The present stage's time near what has passed of it, in milliseconds at
/// rate 1000: it ends at once, or soon.
fn around_elapsed(random: &mut Random, envelope: &Envelope, p: &mut EnvelopeParams) {
    let stage = envelope.stage();
    let total = reference::count(envelope, stage);
    let elapsed = total.saturating_sub(envelope.inside().rest);
    let time = (elapsed + random.below(5)).saturating_sub(1) as f32;
    match stage {
        Stage::Delay => p.delay = time,
        Stage::Attack => p.attack = time,
        Stage::Hold => p.hold = time,
        Stage::Decay => p.decay = time,
        Stage::Release => p.release = time,
        Stage::Idle => p.end = random.between(0.0, 1.0) as f32,
        Stage::Sustain => p.sustain = random.between(0.0, 1.0) as f32,
    }
}

/// A new timing for `envelope`.
pub fn changed_timing(random: &mut Random, style: Style, envelope: &Envelope) -> Timing {
    let mut timing = *envelope.timing();
    match random.below(12) {
        0 => {}
        1 => timing.sample_rate = settings::rate_over(random),
        2..5 => timing.scale = settings::timing(random, style).scale,
        5..8 => timing.sample_rate = settings::timing(random, style).sample_rate,
        _ => timing = settings::timing(random, style),
    }
    timing
}

#[cfg(test)]
mod tests {
    use super::*;
    use crate::replay::Asked;
    use crate::series::tests::follow_their_seed;

    #[test]
    fn a_seed_makes_the_same_lists() {
        follow_their_seed(lists, |list| list.call_bytes());
    }

    #[test]
    fn lists_keep_to_the_protocol() {
        for list in lists(3).take(300) {
            assert!(list.steps.len() as u64 <= CALLS);
            assert!(matches!(list.steps[0].call, Call::Fresh(..)));
            for step in &list.steps {
                assert!(step.call.levels() <= LONGEST as usize + 1);
            }
        }
    }
}
