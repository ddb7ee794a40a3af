//! What the lists of a bank reached: each call, accepted and by each number
//! that can refuse it; accepted calls by the stage of the voice that they met;
//! and the places where something is easily got wrong, those of [`chords`] too.
//! What was not reached is not compared, so it is a failure.

mod chords;

use crate::banks::calls::{Call, LONGEST, NAMES};
use crate::banks::refusals::{CHORD, FRAMES, VOICE, VOICES, stride};
use crate::calls::{STAGES, stage_number};
use crate::coverage::counted;
use crate::reference::{ACCEPTED, RATE, TIME};
use crate::rust::envelope::{EnvelopeBank, StealRestart, Trigger};

/// The calls that can be refused, with their numbers.
const REFUSED: [(&str, &[u32]); NAMES.len()] = [
    ("open", &[VOICES, TIME, RATE]),
    ("settings", &[VOICE, TIME]),
    ("settings for all", &[TIME]),
    ("timing", &[RATE]),
    ("trigger", &[VOICE]),
    ("release", &[VOICE]),
    ("reset", &[VOICE]),
    ("join", &[VOICE]),
    ("process", &[FRAMES]),
    ("readings", &[VOICE]),
    ("chord", &[CHORD, VOICE]),
];

/// One more than the largest number that refuses a call.
const NUMBERS: usize = 13;

/// The kinds of accepted calls that voices in every stage have to meet.
const KINDS: [&str; 19] = [
    "settings",
    "settings for all",
    "timing",
    "new",
    "retrigger from the level",
    "retrigger from the start",
    "legato",
    "legato inverted",
    "release",
    "reset",
    "join",
    "joined by another",
    "process",
    "readings",
    "new by a chord",
    "retrigger from the level by a chord",
    "retrigger from the start by a chord",
    "legato by a chord",
    "legato inverted by a chord",
];

/// Places, in the order of printing.
const MARKS: [&str; 29] = [
    "0 voices",
    "1 voice",
    "16 voices",
    "17 voices",
    "32 voices",
    "33 voices",
    "48 voices",
    "49 voices",
    "63 voices",
    "64 voices",
    "65 voices",
    "more voices",
    "the last voice",
    "one past the last voice",
    "voice 63, not there",
    "voice 64",
    "voice of 2^32 or more",
    "voice 2^64 - 1",
    "join of no voice",
    "join from no voice",
    "join with itself",
    "an output of 0",
    "one level short of whole frames",
    "one level over whole frames",
    "an output of 262,144",
    "a segment's end within a block",
    "a segment's end with its block",
    "two segments' ends in one frame",
    "a segment's end within a stage",
];

/// Counts of what was reached.
#[derive(Clone, Default)]
pub struct Coverage {
    calls: [[u64; NUMBERS]; NAMES.len()],
    met: [[u64; KINDS.len()]; STAGES.len()],
    marks: [u64; MARKS.len()],
    chords: [u64; chords::CASES],
}

impl Coverage {
    /// `call` on `bank`, answered with `refusal`.
    pub fn add(&mut self, bank: &EnvelopeBank, call: &Call, refusal: u32) {
        self.calls[call.number()][refusal as usize] += 1;
        let voices = bank.voices() as u64;
        match *call {
            Call::Open(voices, ..) => self.opened(voices),
            Call::Process(levels) => self.processed(levels, stride(voices) as u32),
            Call::Join(voice, from) => {
                self.named(voices, voice);
                self.named(voices, from);
                self.mark_if(voice >= voices, "join of no voice");
                self.mark_if(from >= voices, "join from no voice");
                self.mark_if(voice == from && from < voices, "join with itself");
            }
            Call::Settings(voice, _)
            | Call::Trigger(voice, _)
            | Call::Release(voice)
            | Call::Reset(voice)
            | Call::Read(voice) => self.named(voices, voice),
            Call::Chord(ref named, _) => self.chord(voices, named),
            Call::SettingsForAll(_) | Call::Timing(_) => {}
        }
        if refusal == ACCEPTED {
            self.accepted(bank, call);
        }
    }

    fn mark_if(&mut self, reached: bool, name: &str) {
        if !reached {
            return;
        }
        if let Some(at) = MARKS.iter().position(|mark| *mark == name) {
            self.marks[at] += 1;
        }
    }

    fn opened(&mut self, voices: u64) {
        let name = match voices {
            1 => "1 voice".to_string(),
            0..66 => format!("{voices} voices"),
            _ => "more voices".to_string(),
        };
        self.mark_if(true, &name);
    }

    /// A call names a voice.
    fn named(&mut self, voices: u64, voice: u64) {
        self.mark_if(voice.checked_add(1) == Some(voices), "the last voice");
        self.mark_if(voice == voices, "one past the last voice");
        self.mark_if(voice == 63 && voices < 64, "voice 63, not there");
        self.mark_if(voice == 64, "voice 64");
        self.mark_if(voice >> 32 != 0, "voice of 2^32 or more");
        self.mark_if(voice == u64::MAX, "voice 2^64 - 1");
    }

    fn chord(&mut self, voices: u64, named: &[u64]) {
        for voice in named {
            self.named(voices, *voice);
        }
        let cases = chords::cases(voices, named).into_iter();
        for (count, (_, holds)) in self.chords.iter_mut().zip(cases) {
            *count += u64::from(holds);
        }
    }

    fn processed(&mut self, levels: u32, stride: u32) {
        self.mark_if(levels == 0, "an output of 0");
        self.mark_if(
            levels % stride == stride - 1,
            "one level short of whole frames",
        );
        self.mark_if(levels % stride == 1, "one level over whole frames");
        self.mark_if(levels == LONGEST, "an output of 262,144");
    }

    fn accepted(&mut self, bank: &EnvelopeBank, call: &Call) {
        match *call {
            Call::Open(..) => {}
            // A place of its own, and no change.
            Call::Join(voice, from) if voice == from => {}
            Call::SettingsForAll(_) => self.all_met(bank, "settings for all"),
            Call::Timing(_) => self.all_met(bank, "timing"),
            Call::Process(levels) => {
                self.all_met(bank, "process");
                self.ends(bank, levels as usize / bank.stride());
            }
            Call::Join(voice, from) => {
                self.met(bank, voice, "join");
                self.met(bank, from, "joined by another");
            }
            Call::Trigger(voice, trigger) => self.met(bank, voice, kind(bank, voice, trigger)),
            Call::Chord(ref voices, trigger) => self.met_by_chord(bank, voices, trigger),
            Call::Settings(voice, _)
            | Call::Release(voice)
            | Call::Reset(voice)
            | Call::Read(voice) => self.met(bank, voice, NAMES[call.number()]),
        }
    }

    fn met(&mut self, bank: &EnvelopeBank, voice: u64, name: &str) {
        if let Some(kind) = KINDS.iter().position(|kind| *kind == name) {
            let stage = stage_number(bank.stage(voice as usize));
            self.met[stage as usize][kind] += 1;
        }
    }

    fn met_by_chord(&mut self, bank: &EnvelopeBank, voices: &[u64], trigger: Trigger) {
        for voice in voices {
            let kind = format!("{} by a chord", kind(bank, *voice, trigger));
            self.met(bank, *voice, &kind);
        }
    }

    fn all_met(&mut self, bank: &EnvelopeBank, name: &str) {
        for voice in 0..bank.voices() {
            self.met(bank, voice as u64, name);
        }
    }

    /// The first ends of segments within so many frames.
    fn ends(&mut self, bank: &EnvelopeBank, frames: usize) {
        let timed = (0..bank.voices()).filter(|voice| bank.left(*voice) != u32::MAX);
        let left = |voice: &usize| bank.left(*voice) as usize;
        let Some(first) = timed.clone().map(|voice| left(&voice)).min() else {
            return;
        };
        let ended: Vec<usize> = timed.filter(|voice| left(voice) == first).collect();
        self.mark_if(first < frames, "a segment's end within a block");
        self.mark_if(first == frames, "a segment's end with its block");
        self.mark_if(
            first <= frames && ended.len() > 1,
            "two segments' ends in one frame",
        );
        let goes_on = |voice: &usize| bank.voice(*voice).inside().rest > first as u64;
        self.mark_if(
            first < frames && ended.iter().any(goes_on),
            "a segment's end within a stage",
        );
    }

    /// Adds what another list reached.
    pub fn merge(&mut self, other: &Self) {
        let to = self.calls.as_flattened_mut().iter_mut();
        let to = to.chain(self.met.as_flattened_mut());
        let to = to.chain(&mut self.marks).chain(&mut self.chords);
        let from = other.calls.as_flattened().iter();
        let from = from.chain(other.met.as_flattened());
        let from = from.chain(&other.marks).chain(&other.chords);
        for (to, from) in to.zip(from) {
            *to += from;
        }
    }

    /// Prints the counts, and answers whether everything was reached.
    #[must_use]
    pub fn print(&self) -> bool {
        let accepted = self.calls.map(|counts| counts[ACCEPTED as usize]);
        println!("accepted: {}", counted(&NAMES, &accepted));
        let (names, counts): (Vec<_>, Vec<_>) = self.refusals().into_iter().unzip();
        println!("refused: {}", counted(&names, &counts));
        for (stage, met) in STAGES.iter().zip(&self.met) {
            println!("in {stage:?}: {}", counted(&KINDS, met));
        }
        println!("{}", counted(&MARKS, &self.marks));
        let (names, counts): (Vec<_>, Vec<_>) = self.chords().into_iter().unzip();
        println!("{}", counted(&names, &counts));
        let missing = self.missing();
        for thing in &missing {
            println!("not reached: {thing}");
        }
        missing.is_empty()
    }

    /// Each call with each number that can refuse it, and how often it did.
    fn refusals(&self) -> Vec<(String, u64)> {
        let mut refusals = Vec::new();
        for ((name, numbers), counts) in REFUSED.iter().zip(&self.calls) {
            for number in *numbers {
                refusals.push((format!("{name} by {number}"), counts[*number as usize]));
            }
        }
        refusals
    }

    /// Each case of a chord, and how often it came.
    fn chords(&self) -> Vec<(String, u64)> {
        let names = chords::cases(0, &[]).map(|(name, _)| format!("a chord with {name}"));
        names.into_iter().zip(self.chords).collect()
    }

    fn missing(&self) -> Vec<String> {
        let accepted = NAMES.iter().zip(&self.calls);
        let accepted = accepted.map(|(name, counts)| ((*name).to_string(), counts[0]));
        let met = STAGES.iter().zip(&self.met).flat_map(|(stage, met)| {
            let named =
                move |(kind, count): (&&str, &u64)| (format!("{kind} in {stage:?}"), *count);
            KINDS.iter().zip(met).map(named)
        });
        let marks = MARKS.iter().zip(self.marks);
        let marks = marks.map(|(mark, count)| ((*mark).to_string(), count));
        accepted
            .chain(self.refusals())
            .chain(met)
            .chain(marks)
            .chain(self.chords())
            .filter(|(_, count)| *count == 0)
            .map(|(name, _)| name)
            .collect()
    }
}

/// The kind of a trigger on a voice with these settings.
fn kind(bank: &EnvelopeBank, voice: u64, trigger: Trigger) -> &'static str {
    let settings = bank.params(voice as usize);
    match trigger {
        Trigger::New => "new",
        Trigger::Retrigger if settings.steal_restart == StealRestart::CurrentLevel => {
            "retrigger from the level"
        }
        Trigger::Retrigger => "retrigger from the start",
        Trigger::Legato if settings.legato_inverted => "legato inverted",
        Trigger::Legato => "legato",
    }
}

#[cfg(test)]
mod tests {
    use super::*;
    use crate::rust::envelope::{EnvelopeParams, Timing};

    /// The counts of a call that was answered once, with `number`.
    fn once(number: u32) -> [u64; NUMBERS] {
        std::array::from_fn(|at| u64::from(at == number as usize))
    }

    #[test]
    fn counts_by_the_stage_before_the_call() {
        let mut bank = EnvelopeBank::new(2, EnvelopeParams::AMP, Timing::new(1e3));
        bank.trigger(1, Trigger::New);
        let mut coverage = Coverage::default();
        let everything = coverage.missing().len();
        coverage.add(&bank, &Call::Join(0, 1), ACCEPTED);
        coverage.add(&bank, &Call::Process(32), ACCEPTED);
        coverage.add(&bank, &Call::Release(u64::MAX), VOICE);
        assert_eq!(coverage.met[0][10], 1, "join in Idle");
        assert_eq!(coverage.met[2][11], 1, "joined in Attack");
        assert_eq!(coverage.met[2][12], 1, "process in Attack");
        assert_eq!(coverage.calls[7], once(ACCEPTED));
        assert_eq!(coverage.calls[5], once(VOICE));
        // join, process and a refused release; four kinds in stages; the last
        // voice, a voice of 2^32 or more, 2^64 - 1, and an end within a block.
        assert_eq!(everything - coverage.missing().len(), 3 + 4 + 4);
        let mut sum = coverage.clone();
        sum.merge(&coverage);
        assert_eq!(sum.calls[7][0], 2);
        assert_eq!(sum.marks[25], 2);
    }

    #[test]
    fn counts_each_voice_of_an_accepted_chord() {
        let mut bank = EnvelopeBank::new(3, EnvelopeParams::AMP, Timing::new(1e3));
        bank.trigger(1, Trigger::New);
        let mut coverage = Coverage::default();
        let everything = coverage.missing().len();
        let chord = |voices: &[u64]| Call::Chord(voices.to_vec(), Trigger::Legato);
        coverage.add(&bank, &chord(&[2, 0, 1]), ACCEPTED);
        coverage.add(&bank, &chord(&[1, 1]), CHORD);
        coverage.add(&bank, &chord(&[0, 1, 3]), VOICE);
        let [idle, attack] = [0, 2].map(|stage| coverage.met[stage][17]);
        assert_eq!((idle, attack), (2, 1), "legato by a chord");
        assert_eq!(coverage.calls[10].iter().sum::<u64>(), 3);
        // Accepted, by 12 and by 2; two stages; the last voice and one past it;
        // a voice twice, and the last missing.
        assert_eq!(everything - coverage.missing().len(), 3 + 2 + 2 + 2);
        let mut sum = coverage.clone();
        sum.merge(&coverage);
        assert_eq!(sum.chords.iter().sum::<u64>(), 4);
    }
}
