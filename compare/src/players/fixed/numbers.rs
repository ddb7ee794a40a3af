//! Numbers that are none, at their limits and beside them.

use super::{Cases, FRAME, List, OPENED, open};
use crate::fixed::{RATE_1000, SAMPLE};
use crate::players::records::Event;
use crate::players::specials::KINDS;
use crate::reference::LIMIT;
use crate::rust::envelope::{EnvelopeParams, Timing};

/// A list that opens with these.
fn opens(timing: Timing, settings: EnvelopeParams) -> List {
    List::default().then(Event::Open(2, timing, settings))
}

pub(super) fn cases(to: &mut Cases) {
    for (name, narrow, wide) in KINDS {
        if name != "infinity" {
            times(to, name, f32::from_bits(narrow));
            rates(to, name, f64::from_bits(wide));
        }
        levels(to, name, f32::from_bits(narrow));
        tempos(to, name, f64::from_bits(wide));
    }
    limits(to);
}

fn times(to: &mut Cases, name: &str, time: f32) {
    let settings = EnvelopeParams {
        delay: time,
        hold: time,
        release: time,
        ..SAMPLE
    };
    let list = opens(RATE_1000, settings).note(1).frames(2);
    let list = list.then(Event::Release(1)).frames(1);
    to.plays(&format!("{name} as times"), list, 3 * FRAME, 3);
    let settings = EnvelopeParams {
        attack: time,
        decay: time,
        ..SAMPLE
    };
    let list = open(2).note(1).frames(3);
    let list = list.then(Event::Settings(1, settings)).frames(2);
    to.plays(&format!("{name} as times later"), list, 5 * FRAME, 5);
}

fn rates(to: &mut Cases, name: &str, sample_rate: f64) {
    let timing = Timing::new(sample_rate);
    let list = opens(timing, SAMPLE).note(0).frames(2);
    let list = list.then(Event::Timing(RATE_1000)).note(1).frames(2);
    let list = list.then(Event::Timing(timing)).frames(1);
    to.plays(&format!("{name} as rate"), list, 5 * FRAME, 5);
}

fn levels(to: &mut Cases, name: &str, level: f32) {
    let settings = EnvelopeParams {
        sustain: level,
        attack_curve: level,
        release_curve: level,
        ..SAMPLE
    };
    let list = opens(RATE_1000, settings).note(1).frames(5);
    let all = EnvelopeParams {
        start: level,
        end: level,
        decay_curve: level,
        ..SAMPLE
    };
    let list = list.then(Event::SettingsForAll(all)).frames(3);
    to.plays(&format!("{name} as levels and curves"), list, 8 * FRAME, 8);
}

fn tempos(to: &mut Cases, name: &str, number: f64) {
    let timing = Timing {
        tempo: number,
        scale: number,
        ..RATE_1000
    };
    let list = opens(timing, SAMPLE).note(0).frames(3);
    to.plays(&format!("{name} as tempo and scale"), list, 3 * FRAME, 3);
}

fn limits(to: &mut Cases) {
    let long = EnvelopeParams {
        delay: LIMIT,
        attack: LIMIT,
        hold: LIMIT,
        decay: LIMIT,
        release: LIMIT,
        ..SAMPLE
    };
    let fast = Timing::new(f64::from(LIMIT));
    let list = opens(fast, long).note(1).frames(2);
    to.plays("a rate and times at the limit", list, 2 * FRAME, 2);
    for (name, rate) in [
        ("just over its limit", f64::from(LIMIT).next_up()),
        ("infinite", f64::INFINITY),
    ] {
        let timing = Timing::new(rate);
        to.refuses(&format!("open, rate {name}"), opens(timing, SAMPLE), 4, 0);
        let list = open(2).then(Event::Timing(timing)).frames(1);
        to.refuses(&format!("timing, rate {name}"), list, 4, OPENED);
    }
    for (name, settings) in too_long(LIMIT.next_up()) {
        let name = format!("{name} over its limit");
        to.refuses(&format!("open, {name}"), opens(RATE_1000, settings), 3, 0);
        let list = open(2).note(1).then(Event::Settings(1, settings));
        to.refuses(&format!("settings, {name}"), list, 3, OPENED + 5);
        let list = open(2).then(Event::SettingsForAll(settings));
        to.refuses(&format!("settings for all, {name}"), list, 3, OPENED);
    }
    let endless = too_long(f32::INFINITY)[1].1;
    to.refuses("an infinite time", opens(RATE_1000, endless), 3, 0);
}

/// The settings with each of the times as given.
fn too_long(time: f32) -> [(&'static str, EnvelopeParams); 5] {
    let with = |change: fn(&mut EnvelopeParams, f32)| {
        let mut settings = SAMPLE;
        change(&mut settings, time);
        settings
    };
    [
        ("delay", with(|p, time| p.delay = time)),
        ("attack", with(|p, time| p.attack = time)),
        ("hold", with(|p, time| p.hold = time)),
        ("decay", with(|p, time| p.decay = time)),
        ("release", with(|p, time| p.release = time)),
    ]
}
