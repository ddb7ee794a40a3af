//! Each voice's history, read from the calls alone as document 01 has it, and
//! the Rust's single envelope run over the entries. No bank takes part.

use crate::banks::calls::Call;
use crate::banks::refusals::stride;
use crate::reference;
use crate::rust::envelope::{Envelope, EnvelopeParams, Timing, Trigger};

/// One entry. Frames in a row are one entry, with the place of their first
/// level among the list's.
#[derive(Clone, Copy, Debug)]
pub enum Entry {
    Fresh(EnvelopeParams, Timing),
    Settings(EnvelopeParams),
    Timing(Timing),
    Trigger(Trigger),
    Release,
    Reset,
    Frames { count: usize, first: usize },
}

/// A voice's entries, and the envelope that they leave.
#[derive(Clone)]
struct History {
    entries: Vec<Entry>,
    envelope: Envelope,
}

impl History {
    fn fresh(settings: EnvelopeParams, timing: Timing) -> Self {
        Self {
            entries: vec![Entry::Fresh(settings, timing)],
            envelope: Envelope::new(settings, timing),
        }
    }

    /// The entry's step, whose levels go to `levels`.
    fn enter(&mut self, entry: Entry, stride: usize, levels: &mut [f32]) {
        step(&mut self.envelope, &entry, stride, levels);
        self.entries.push(entry);
    }
}

/// One step of the envelope. The level of frame k goes to k × stride past the
/// first's place.
fn step(envelope: &mut Envelope, entry: &Entry, stride: usize, levels: &mut [f32]) {
    match *entry {
        Entry::Fresh(settings, timing) => *envelope = Envelope::new(settings, timing),
        Entry::Settings(settings) => envelope.set_params(settings),
        Entry::Timing(timing) => envelope.set_timing(timing),
        Entry::Trigger(trigger) => envelope.trigger(trigger),
        Entry::Release => envelope.release(),
        Entry::Reset => envelope.reset(),
        Entry::Frames { count, first } => {
            let mut block = vec![f32::NAN; count];
            envelope.process(&mut block);
            for (row, level) in block.into_iter().enumerate() {
                levels[first + row * stride] = level;
            }
        }
    }
}

/// The histories of all voices.
#[derive(Default)]
pub struct Histories {
    voices: Vec<History>,
}

impl Histories {
    #[must_use]
    pub fn voices(&self) -> u64 {
        self.voices.len() as u64
    }

    fn stride(&self) -> usize {
        stride(self.voices()) as usize
    }

    /// The envelope of a voice's history, if there is that voice.
    #[must_use]
    pub fn envelope(&self, voice: u64) -> Option<&Envelope> {
        let history = self.voices.get(usize::try_from(voice).ok()?);
        history.map(|history| &history.envelope)
    }

    /// A refused opening leaves no voices.
    pub fn clear(&mut self) {
        self.voices.clear();
    }

    /// What an accepted call enters. A process puts its output at the end of
    /// `levels`, +0 where there is no voice.
    pub fn enter(&mut self, call: &Call, levels: &mut Vec<f32>) {
        match *call {
            Call::Open(voices, settings, timing) => {
                self.voices = vec![History::fresh(settings, timing); voices as usize];
            }
            Call::Settings(voice, settings) => self.enter_one(voice, Entry::Settings(settings)),
            Call::SettingsForAll(settings) => self.enter_all(Entry::Settings(settings)),
            Call::Timing(timing) => self.enter_all(Entry::Timing(timing)),
            Call::Trigger(voice, trigger) => self.enter_one(voice, Entry::Trigger(trigger)),
            Call::Chord(ref voices, trigger) => {
                for voice in voices {
                    self.enter_one(*voice, Entry::Trigger(trigger));
                }
            }
            Call::Release(voice) => self.enter_one(voice, Entry::Release),
            Call::Reset(voice) => self.enter_one(voice, Entry::Reset),
            Call::Join(voice, from) => {
                self.voices[voice as usize] = self.voices[from as usize].clone();
            }
            Call::Process(length) => self.enter_frames(length as usize, levels),
            Call::Read(_) => {}
        }
    }

    fn enter_one(&mut self, voice: u64, entry: Entry) {
        self.voices[voice as usize].enter(entry, 0, &mut []);
    }

    fn enter_all(&mut self, entry: Entry) {
        for history in &mut self.voices {
            history.enter(entry, 0, &mut []);
        }
    }

    fn enter_frames(&mut self, length: usize, levels: &mut Vec<f32>) {
        let (stride, before) = (self.stride(), levels.len());
        levels.resize(before + length, 0.0);
        for (voice, history) in self.voices.iter_mut().enumerate() {
            let frames = Entry::Frames {
                count: length / stride,
                first: before + voice,
            };
            history.enter(frames, stride, levels);
        }
    }

    /// The envelope of a voice's history, run from nothing over the recorded
    /// entries. Their levels go to where they were among the list's, which for
    /// entries that came by a join is another voice's lane.
    pub fn again(&self, voice: u64, levels: &mut [f32]) -> Envelope {
        let mut envelope = reference::refused();
        for entry in &self.voices[voice as usize].entries {
            step(&mut envelope, entry, self.stride(), levels);
        }
        envelope
    }
}

#[cfg(test)]
mod tests {
    use super::*;
    use crate::rust::envelope::Stage;

    const SETTINGS: EnvelopeParams = EnvelopeParams {
        attack: 4.0,
        ..EnvelopeParams::AMP
    };

    /// The kinds of a voice's entries, a letter each.
    fn kinds(histories: &Histories, voice: usize) -> String {
        let letter = |entry: &Entry| match entry {
            Entry::Fresh(..) => 'f',
            Entry::Settings(_) => 's',
            Entry::Timing(_) => 't',
            Entry::Trigger(_) => 'n',
            Entry::Release => 'l',
            Entry::Reset => 'r',
            Entry::Frames { .. } => '.',
        };
        histories.voices[voice].entries.iter().map(letter).collect()
    }

    #[test]
    fn a_chord_enters_one_trigger_for_each_voice() {
        let mut histories = Histories::default();
        let mut levels = Vec::new();
        for call in [
            Call::Open(4, SETTINGS, Timing::new(1000.0)),
            Call::Chord(Vec::new(), Trigger::New),
            Call::Chord(vec![3, 0], Trigger::New),
            Call::Process(32),
            Call::Chord(vec![0, 1], Trigger::Legato),
        ] {
            histories.enter(&call, &mut levels);
        }
        let entered = [0, 1, 2, 3].map(|voice| kinds(&histories, voice));
        assert_eq!(entered, ["fn.n", "f.n", "f.", "fn."]);
        assert_eq!(levels[16..20], [0.25, 0.0, 0.0, 0.25]);
    }

    #[test]
    fn a_join_replaces_and_one_with_itself_keeps() {
        let mut histories = Histories::default();
        let mut levels = Vec::new();
        for call in [
            Call::Open(3, SETTINGS, Timing::new(1000.0)),
            Call::Trigger(0, Trigger::New),
            Call::Process(32),
            Call::SettingsForAll(SETTINGS),
            Call::Release(2),
            Call::Join(2, 0),
            Call::Join(1, 1),
            Call::Reset(1),
            Call::Timing(Timing::new(1000.0)),
            Call::Read(0),
            Call::Process(16),
        ] {
            histories.enter(&call, &mut levels);
        }
        assert_eq!(kinds(&histories, 0), "fn.st.");
        assert_eq!(kinds(&histories, 1), "f.srt.");
        assert_eq!(kinds(&histories, 2), "fn.st.");
        assert_eq!(levels.len(), 48);
        assert_eq!(levels[16..20], [0.25, 0.0, 0.0, 0.0]);
        assert_eq!(levels[32..36], [0.5, 0.0, 0.5, 0.0]);
        let mut again = vec![9.0; 48];
        let envelope = histories.again(2, &mut again);
        assert_eq!(envelope.stage(), Stage::Attack);
        // The rows before the join are those of voice 0.
        assert_eq!(again[15..19], [9.0, 0.25, 9.0, 9.0]);
        assert_eq!(again[32..36], [9.0, 9.0, 0.5, 9.0]);
    }
}
