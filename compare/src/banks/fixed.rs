//! Fixed lists of calls on a bank, each about one thing that is easily got
//! wrong. Each also says whether the Rust still shows that thing, so that none
//! can go stale.

mod changes;
mod chords;
mod joins;
mod outputs;
mod refused;
mod segments;
mod voices;

use crate::banks::calls::{Call, Reading};
use crate::banks::lists::{Draft, List};
use crate::fixed::RATE_1000;
use crate::rust::envelope::{EnvelopeParams, Stage, Trigger};

/// A list as it grows, with what is asked of it.
struct Case(Draft);

type Build = fn(&mut Case) -> bool;

/// Each case: its name, and what makes it and answers whether it shows what
/// the name says.
const CASES: [(&str, Build); 40] = [
    ("document 01's sample list", voices::the_sample),
    ("the sample list on voice 16 of 17", voices::the_last_voice),
    ("0 voices", voices::none),
    ("1 voice", voices::one),
    ("16 voices", voices::sixteen),
    ("17 voices", voices::seventeen),
    ("64 voices", voices::all),
    ("65 voices", voices::too_many),
    ("spare lanes", voices::spare_lanes),
    ("a chain of joins", joins::chain),
    ("a chain of joins from its end", joins::chain_from_its_end),
    ("a join with itself", joins::itself),
    ("a join takes the settings", joins::takes_settings),
    ("settings for one after a join", joins::settings_after),
    ("notes on one after a join", joins::notes_after),
    ("a join from every stage to every stage", joins::stages),
    ("settings for all in mid-stage", changes::for_all),
    ("settings for one of three", changes::for_one),
    ("timing in mid-segment", changes::timing),
    ("every kind of trigger", changes::triggers),
    ("chords between blocks", chords::short),
    ("chords of no voice", chords::of_none),
    ("chords of one voice", chords::of_one),
    ("chords of some voices", chords::of_some),
    ("chords of all 64 voices", chords::of_all),
    ("chords of over 64 entries", chords::too_long),
    ("chords with a voice twice", chords::twice),
    ("chords with a missing voice twice", chords::missing_twice),
    ("chords with a voice missing", chords::missing),
    (
        "chords with one twice and one missing",
        chords::twice_and_missing,
    ),
    ("lengths of the output", outputs::lengths),
    ("the longest output", outputs::longest),
    ("a neighbour's end within a block", segments::neighbour),
    ("two ends in one frame", segments::two_ends),
    ("an end in every frame", segments::every_frame),
    ("stages of 16,384 and 16,385", segments::long),
    ("base of negative zero", segments::negative_zero),
    ("openings refused", refused::openings),
    ("a refused opening takes the bank", refused::takes_the_bank),
    ("every refusal, and nothing moved", refused::nothing_moved),
];

/// All cases.
///
/// # Errors
///
/// One of them doesn't show what it is about.
pub fn lists() -> Result<Vec<List>, String> {
    CASES
        .into_iter()
        .map(|(name, build)| {
            let mut case = Case(Draft::new(format!("case {name:?}")));
            if build(&mut case) {
                Ok(case.0.close())
            } else {
                Err(format!("case {name:?}: the Rust doesn't show it any more"))
            }
        })
        .collect()
}

/// Whether all levels of these lanes are +0.
fn silent(lanes: &[Vec<f32>]) -> bool {
    lanes.iter().flatten().all(|level| level.to_bits() == 0)
}

impl Case {
    /// Answers the output.
    fn ask(&mut self, call: Call) -> Vec<f32> {
        self.0.ask(call, u64::MAX).to_vec()
    }

    /// A bank at a rate at which a millisecond is a sample.
    fn open(&mut self, voices: u64, settings: EnvelopeParams) {
        self.ask(Call::Open(voices, settings, RATE_1000));
    }

    /// A new note.
    fn note(&mut self, voice: u64) {
        self.ask(Call::Trigger(voice, Trigger::New));
    }

    /// A trigger of this kind for each of the voices.
    fn chord(&mut self, voices: &[u64], trigger: Trigger) {
        self.ask(Call::Chord(voices.to_vec(), trigger));
    }

    fn set(&mut self, voice: u64, settings: EnvelopeParams) {
        self.ask(Call::Settings(voice, settings));
    }

    /// A block, whose levels are answered lane by lane.
    fn frames(&mut self, frames: usize) -> Vec<Vec<f32>> {
        let stride = self.0.bank().stride();
        let rows = self.ask(Call::Process((frames * stride) as u32));
        let lane = |lane| rows.iter().skip(lane).step_by(stride).copied().collect();
        (0..stride).map(lane).collect()
    }

    /// All readings of a voice, by its history.
    fn read(&mut self, voice: u64) -> Reading {
        self.ask(Call::Read(voice));
        self.0.reading(voice)
    }

    /// The bytes of the readings of every voice.
    fn read_all(&mut self) -> Vec<u8> {
        let voices = self.0.bank().voices() as u64;
        (0..voices)
            .flat_map(|voice| self.read(voice).bytes())
            .collect()
    }

    /// Whether a voice is in `stage` with `level` to come next.
    fn stands(&self, voice: usize, stage: Stage, level: f32) -> bool {
        let bank = self.0.bank();
        bank.stage(voice) == stage && bank.level(voice).to_bits() == level.to_bits()
    }

    /// Frames left of a voice's stage.
    fn rest(&self, voice: usize) -> u64 {
        self.0.bank().voice(voice).inside().rest
    }

    /// Whether the last call was answered with `number`.
    fn refused(&self, number: u32) -> bool {
        self.0.refusal() == Some(number)
    }
}

#[cfg(test)]
mod tests {
    #[test]
    fn each_shows_what_it_is_about() {
        assert_eq!(super::lists().unwrap().len(), super::CASES.len());
    }
}
