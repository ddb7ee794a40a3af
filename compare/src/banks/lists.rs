//! A list of calls on a bank with the Rust's answers to each, by its bank and
//! by the voices' histories. It grows call by call, so that a call can follow
//! from where the voices stand.

use crate::banks::calls::{Call, Reading, before};
use crate::banks::coverage::Coverage;
use crate::banks::histories::Histories;
use crate::banks::reference::{self, reading, reading_of};
use crate::banks::refusals::{refusal, stride};
use crate::calls::CALL;
use crate::random::Random;
use crate::reference::{ACCEPTED, lead_run_on};
use crate::replay::Asked;
use crate::rust::envelope::EnvelopeBank;

/// A call and what the Rust says to it.
#[derive(Clone, Debug)]
pub struct Step {
    pub call: Call,
    pub refusal: u32,
    /// Of a call that reads.
    pub readings: Option<Readings>,
}

/// What is read of a voice.
#[derive(Clone, Copy, Debug)]
pub struct Readings {
    /// By the Rust's bank.
    pub bank: Reading,
    /// By the single envelope and the voice's history.
    pub history: Reading,
    /// The lead as a copy of that envelope took it, where one was run on.
    pub run_on: Option<u64>,
}

/// The outputs of all processes, one after another.
#[derive(Clone, Default)]
pub struct Levels {
    /// By the Rust's bank.
    pub bank: Vec<f32>,
    /// By the single envelopes as the calls came.
    pub histories: Vec<f32>,
    /// By single envelopes run from nothing over the histories that the list
    /// leaves, where these have a level.
    pub again: Vec<f32>,
}

/// A list of calls, answered.
pub struct List {
    /// What it is called where it shows a difference.
    pub name: String,
    pub steps: Vec<Step>,
    pub levels: Levels,
    pub coverage: Coverage,
    /// Whether its answers are those of a list whose blocks were longer.
    pub is_cut: bool,
}

impl List {
    /// The same calls and answers, each block cut into several at random.
    #[must_use]
    pub fn cut(&self, random: &mut Random) -> Self {
        let (mut steps, mut voices) = (Vec::new(), 0);
        for step in &self.steps {
            match step.call {
                Call::Process(levels) if step.refusal == ACCEPTED => {
                    for part in parts(random, levels, stride(voices) as u32) {
                        let call = Call::Process(part);
                        steps.push(Step { call, ..*step });
                    }
                    continue;
                }
                Call::Open(..) if step.refusal != ACCEPTED => voices = 0,
                Call::Open(opened, ..) => voices = opened,
                _ => {}
            }
            steps.push(step.clone());
        }
        Self {
            name: format!("{}, cut", self.name),
            steps,
            levels: self.levels.clone(),
            coverage: Coverage::default(),
            is_cut: true,
        }
    }

    /// The bytes that the Rust's answers make.
    #[must_use]
    pub fn reply_bytes(&self) -> Vec<u8> {
        let mut bytes = Vec::new();
        let mut levels = self.levels.bank.iter();
        for step in &self.steps {
            match step.readings {
                Some(readings) => bytes.extend(readings.bank.bytes()),
                None => bytes.extend(step.refusal.to_le_bytes()),
            }
            for level in levels.by_ref().take(step.call.levels()) {
                bytes.extend(level.to_bits().to_le_bytes());
            }
        }
        bytes
    }
}

/// Each of `lists`, and right after it the same with its blocks cut.
pub fn with_cuts(lists: impl Iterator<Item = List>, seed: u64) -> impl Iterator<Item = List> {
    let mut random = Random::named(seed, "cuts");
    lists.flat_map(move |list| {
        let cut = list.cut(&mut random);
        [list, cut]
    })
}

impl Asked for List {
    fn call_bytes(&self) -> Vec<u8> {
        let mut bytes = Vec::with_capacity(CALL * self.steps.len());
        for step in &self.steps {
            bytes.extend(step.call.bytes());
        }
        bytes
    }
}

/// The lengths of the blocks that `levels` is cut into, whole frames each, now
/// and then none.
fn parts(random: &mut Random, levels: u32, stride: u32) -> Vec<u32> {
    let frames = u64::from(levels / stride);
    // A long block is cut into a hundred parts or so, not into its frames.
    let most = match random.below(4) {
        0 => 2 + frames / 50,
        1 => 9 + frames / 50,
        _ => frames + 1,
    };
    let (mut rest, mut parts) = (levels, Vec::new());
    while rest > 0 {
        let part = (random.below(most + 1) as u32 * stride).min(rest);
        parts.push(part);
        rest -= part;
    }
    parts
}

/// A list as it grows.
pub struct Draft {
    list: List,
    bank: EnvelopeBank,
    histories: Histories,
}

impl Draft {
    /// A list without calls. The first has to be an opening.
    #[must_use]
    pub fn new(name: String) -> Self {
        Self {
            list: List {
                name,
                steps: Vec::new(),
                levels: Levels::default(),
                coverage: Coverage::default(),
                is_cut: false,
            },
            bank: reference::refused(),
            histories: Histories::default(),
        }
    }

    /// The Rust's bank as the calls so far leave it.
    #[must_use]
    pub fn bank(&self) -> &EnvelopeBank {
        &self.bank
    }

    /// The levels that were handed out so far.
    #[must_use]
    pub fn levels(&self) -> usize {
        self.list.levels.bank.len()
    }

    /// The number that the last call was answered with.
    #[must_use]
    pub fn refusal(&self) -> Option<u32> {
        self.list.steps.last().map(|step| step.refusal)
    }

    /// What is read of a voice by its history.
    #[must_use]
    pub fn reading(&self, voice: u64) -> Reading {
        let voices = self.histories.voices();
        let refusal = refusal(voices, &Call::Read(voice));
        reading_of(self.histories.envelope(voice), voices, refusal)
    }

    /// The next call, which answers its output. A lead of at most `run_on`
    /// that it reads is held against a copy of the envelope.
    pub fn ask(&mut self, call: Call, run_on: u64) -> &[f32] {
        let voices = self.histories.voices();
        let refusal = refusal(voices, &call);
        self.list.coverage.add(&self.bank, &call, refusal);
        let levels = &mut self.list.levels;
        let first = levels.bank.len();
        reference::apply(&mut self.bank, &call, refusal, &mut levels.bank);
        match call {
            _ if refusal == ACCEPTED => self.histories.enter(&call, &mut levels.histories),
            Call::Open(..) => self.histories.clear(),
            _ => levels.histories.extend((0..call.levels()).map(before)),
        }
        let readings = match call {
            Call::Read(voice) => Some(self.readings(voice, refusal, run_on)),
            _ => None,
        };
        self.push(call, refusal, readings);
        &self.list.levels.bank[first..]
    }

    fn push(&mut self, call: Call, refusal: u32, readings: Option<Readings>) {
        self.list.steps.push(Step {
            call,
            refusal,
            readings,
        });
    }

    fn readings(&self, voice: u64, refusal: u32, run_on: u64) -> Readings {
        let history = self.reading(voice);
        let lead = history.reply.lead;
        let envelope = self.histories.envelope(voice);
        Readings {
            bank: reading(&self.bank, voice, refusal),
            history,
            run_on: envelope
                .filter(|_| lead <= run_on)
                .map(|envelope| lead_run_on(envelope, lead)),
        }
    }

    /// Ends the list with the readings of every voice, by its history run from
    /// nothing.
    #[must_use]
    pub fn close(mut self) -> List {
        let voices = self.histories.voices();
        let mut again = self.list.levels.histories.clone();
        for voice in 0..voices {
            let envelope = self.histories.again(voice, &mut again);
            let readings = Readings {
                bank: reading(&self.bank, voice, ACCEPTED),
                history: reading_of(Some(&envelope), voices, ACCEPTED),
                run_on: None,
            };
            self.push(Call::Read(voice), ACCEPTED, Some(readings));
        }
        self.list.levels.again = again;
        self.list
    }
}

#[cfg(test)]
mod tests {
    use super::*;
    use crate::rust::envelope::{EnvelopeParams, Timing, Trigger};

    fn list() -> List {
        let mut draft = Draft::new("list 0".into());
        draft.ask(Call::Open(17, EnvelopeParams::AMP, Timing::new(1e4)), 0);
        draft.ask(Call::Trigger(16, Trigger::New), 0);
        draft.ask(Call::Process(320), 0);
        draft.ask(Call::Process(33), 0);
        draft.close()
    }

    #[test]
    fn both_answers_agree_in_the_rust() {
        let list = list();
        assert_eq!(list.levels.bank, list.levels.histories);
        assert_eq!(list.levels.bank, list.levels.again);
        assert_eq!(list.levels.bank[320], before(0), "what a refusal leaves");
        assert_eq!(list.steps.len(), 4 + 17);
        for readings in list.steps.iter().filter_map(|step| step.readings) {
            assert_eq!(readings.bank.bytes(), readings.history.bytes());
        }
    }

    #[test]
    fn a_cut_list_has_the_same_frames() {
        let list = list();
        let mut random = Random::new(1);
        for _ in 0..50 {
            let cut = list.cut(&mut random);
            let lengths = |list: &List| -> Vec<usize> {
                list.steps.iter().map(|step| step.call.levels()).collect()
            };
            let whole = |length: &&usize| **length != 33;
            let cut = lengths(&cut);
            assert!(cut.iter().filter(whole).all(|length| length % 32 == 0));
            assert_eq!(cut.iter().sum::<usize>(), 353);
        }
    }
}
