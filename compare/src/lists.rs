//! A list of calls with the Rust's answer to each, which grows call by call,
//! so that a call can follow from where the envelope stands.

use crate::calls::{Call, Reply};
use crate::reference;
use crate::replay::Asked;
use crate::rust::envelope::Envelope;

/// A call and what the Rust says to it.
#[derive(Clone, Copy, Debug)]
pub struct Step {
    pub call: Call,
    pub reply: Reply,
    /// The lead as a copy of the envelope took it, where one was run on.
    pub run_on: Option<u64>,
}

/// A list of calls, answered.
pub struct List {
    /// What it is called where it shows a difference.
    pub name: String,
    pub steps: Vec<Step>,
    /// The levels of all its calls, one after another.
    pub levels: Vec<f32>,
    envelope: Envelope,
}

impl List {
    /// A list without calls. The first has to be a fresh one.
    #[must_use]
    pub fn new(name: String) -> Self {
        Self {
            name,
            steps: Vec::new(),
            levels: Vec::new(),
            envelope: reference::refused(),
        }
    }

    /// The envelope as the calls so far leave it.
    #[must_use]
    pub fn envelope(&self) -> &Envelope {
        &self.envelope
    }

    /// The next call, which answers its levels. A lead of at most `run_on`
    /// after it is held against a copy of the envelope.
    pub fn ask(&mut self, call: Call, run_on: u64) -> &[f32] {
        let before = self.levels.len();
        let reply = reference::call(&mut self.envelope, &call, &mut self.levels);
        let run_on =
            (reply.lead <= run_on).then(|| reference::lead_run_on(&self.envelope, reply.lead));
        self.steps.push(Step {
            call,
            reply,
            run_on,
        });
        &self.levels[before..]
    }

    /// The bytes that the Rust's answers make.
    #[must_use]
    pub fn reply_bytes(&self) -> Vec<u8> {
        let mut bytes = Vec::new();
        let mut levels = self.levels.iter();
        for step in &self.steps {
            bytes.extend(step.reply.bytes());
            for level in levels.by_ref().take(step.call.levels()) {
                bytes.extend(level.to_bits().to_le_bytes());
            }
        }
        bytes
    }
}

impl Asked for List {
    fn call_bytes(&self) -> Vec<u8> {
        self.steps
            .iter()
            .flat_map(|step| step.call.bytes())
            .collect()
    }
}
