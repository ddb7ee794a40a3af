//! The comparison of live banks sees what it is for: a host with a fault
//! differs in the subject that the fault is about, and without one in none.

use compare::banks::calls::{Call, Reading};
use compare::banks::lists::{Draft, List};
use compare::calls::Settings;
use compare::live::checked::Checked;
use compare::live::expected::Expecting;
use compare::live::functions::{BYTES, Functions, LiveBank, agrees};
use compare::live::hosts::Host;
use compare::live::outputs::Output;
use compare::live::places::{Asked, Part, Place};
use compare::live::through_apart::ThroughApart;
use compare::live::through_c::ThroughC;
use compare::rust::envelope::{EnvelopeParams, Timing, Trigger};

/// What a host does wrong.
#[derive(Clone, Copy, Debug, PartialEq, Eq)]
enum Fault {
    Nothing,
    /// Every call is answered with 0.
    AcceptsAll,
    /// An accepted call is answered with 2.
    RefusesAll,
    /// A refused call starts a note.
    RefusedMoves,
    /// A refused block writes its last level.
    RefusedWrites,
    /// A block's last level is one bit off.
    LastBit,
    /// A block leaves its first level.
    Leaves,
    /// A reading goes on by a frame.
    ReadingMoves,
    /// A join leaves the settings as they were.
    JoinKeepsSettings,
    /// A release is left out.
    NoRelease,
    /// A chord leaves its last voice.
    ChordLeavesLast,
    /// A chord of any kind is one of new notes.
    ChordIsNew,
    /// These readings are one off.
    Settings,
    Stage,
    Idle,
    Level,
    Tail,
    Lead,
    Voices,
    Stride,
    /// A refused reading is answered with 0.
    ReadsAnyVoice,
}

/// A host with a fault.
struct Faulty {
    host: ThroughC,
    fault: Fault,
}

impl Faulty {
    /// What a call does wrong before it is made: whether it is made at all.
    fn is_left_out(&mut self, call: &Call) -> bool {
        matches!(call, Call::Release(_)) && self.fault == Fault::NoRelease
    }

    /// What is called in a call's place.
    fn instead(&self, call: &Call) -> Call {
        match (self.fault, call) {
            (Fault::ChordLeavesLast, Call::Chord(voices, trigger)) => {
                Call::Chord(voices[..voices.len() - 1].to_vec(), *trigger)
            }
            (Fault::ChordIsNew, Call::Chord(voices, _)) => {
                Call::Chord(voices.clone(), Trigger::New)
            }
            _ => call.clone(),
        }
    }
}

impl Host for Faulty {
    const NAME: &'static str = "a faulty host";

    type State = Vec<u8>;

    fn begin(&mut self) {
        self.host.begin();
    }

    fn call(&mut self, call: &Call, out: &mut [f32]) -> u32 {
        if self.is_left_out(call) {
            return 0;
        }
        let kept = self.host.reading(0).reply.settings;
        let first = out.first().copied();
        let answer = self.host.call(&self.instead(call), out);
        let (is_refused, last) = (answer != 0, out.last_mut());
        match self.fault {
            Fault::AcceptsAll => return 0,
            Fault::RefusesAll => return 2,
            Fault::RefusedMoves if is_refused => {
                self.host.bank().trigger(0, 0);
            }
            Fault::RefusedWrites if is_refused => last.into_iter().for_each(|last| *last = 0.0),
            Fault::LastBit if !is_refused => {
                let off = |last: &mut f32| *last = f32::from_bits(last.to_bits() ^ 1);
                last.into_iter().for_each(off);
            }
            Fault::Leaves if !is_refused => {
                out.iter_mut()
                    .zip(first)
                    .for_each(|(to, first)| *to = first);
            }
            Fault::JoinKeepsSettings if matches!(call, Call::Join(0, _)) => {
                self.host.bank().set_params(0, &kept);
            }
            _ => {}
        }
        answer
    }

    fn reading(&mut self, voice: u64) -> Reading {
        let mut reading = self.host.reading(voice);
        let reply = &mut reading.reply;
        match self.fault {
            Fault::ReadingMoves => {
                let mut frame = [0.0; 16];
                self.host.bank().process(&mut frame);
            }
            Fault::Settings => reply.settings.numbers[10] += 1.0,
            Fault::Stage => reply.stage += 1,
            Fault::Idle => reply.idle ^= 1,
            Fault::Level => reply.level = f32::from_bits(reply.level.to_bits() ^ 1),
            Fault::Tail => reply.tail += 1,
            Fault::Lead => reply.lead += 1 << 32,
            Fault::Voices => reading.voices += 1,
            Fault::Stride => reading.stride += 1 << 40,
            Fault::ReadsAnyVoice => reading.refusals = [0; 5],
            _ => {}
        }
        reading
    }

    fn state(&mut self) -> Vec<u8> {
        self.host.state()
    }
}

/// Calls that each fault shows in.
fn list() -> List {
    let other = EnvelopeParams {
        attack: 4.0,
        end: 0.25,
        ..EnvelopeParams::AMP
    };
    let mut draft = Draft::new("list 0".into());
    for call in [
        Call::Open(3, EnvelopeParams::AMP, Timing::new(1e3)),
        Call::Settings(1, other),
        Call::Trigger(1, Trigger::New),
        Call::Process(32),
        Call::Process(33),
        Call::Join(0, 1),
        Call::Join(0, 3),
        Call::Release(1),
        Call::Read(1),
        Call::Process(16),
        Call::Chord(vec![0, 2], Trigger::Legato),
    ] {
        draft.ask(call, 9_999);
    }
    draft.close()
}

/// The subjects in which a host with this fault differs.
fn differing(fault: Fault) -> Vec<&'static str> {
    let host = ThroughC::new(1).unwrap();
    let mut checked = Checked::new(Faulty { host, fault }, Output::new(1).unwrap());
    let (list, mut expecting) = (list(), Expecting::default());
    let mut levels = list.levels.bank.as_slice();
    checked.host.begin();
    for (number, step) in list.steps.iter().enumerate() {
        let place = Place {
            list: &list.name,
            number,
            call: Asked::Call(&step.call),
            part: Part::Whole,
        };
        let (written, later) = levels.split_at(step.call.levels());
        levels = later;
        checked.step(place, expecting.next(step, written));
    }
    let tallies = checked.tallies().into_iter();
    let different = tallies.filter(|tally| !tally.is_good());
    different.map(|tally| tally.name()).collect()
}

#[test]
fn no_fault_no_difference() {
    assert_eq!(differing(Fault::Nothing), Vec::<&str>::new());
}

#[test]
fn each_fault_is_seen_where_it_is() {
    for (fault, subject) in [
        (Fault::AcceptsAll, "refusal"),
        (Fault::RefusesAll, "refusal"),
        (Fault::RefusedMoves, "bank kept"),
        (Fault::RefusedWrites, "output kept"),
        (Fault::LastBit, "levels"),
        (Fault::Leaves, "levels"),
        (Fault::ReadingMoves, "bank kept"),
        (Fault::JoinKeepsSettings, "settings"),
        (Fault::NoRelease, "stage"),
        (Fault::ChordLeavesLast, "stage"),
        (Fault::ChordIsNew, "level"),
        (Fault::Settings, "settings"),
        (Fault::Stage, "stage"),
        (Fault::Idle, "is_idle"),
        (Fault::Level, "level"),
        (Fault::Tail, "tail"),
        (Fault::Lead, "lead"),
        (Fault::Voices, "voices"),
        (Fault::Stride, "stride"),
        (Fault::ReadsAnyVoice, "tail"),
    ] {
        let different = differing(fault);
        assert!(different.contains(&subject), "{fault:?}: {different:?}");
    }
}

/// Arrays apart hold the numbers of a bank that is asked the same.
#[test]
fn arrays_apart() {
    let (mut c, mut apart) = (ThroughC::new(1).unwrap(), ThroughApart::new(1).unwrap());
    for step in list().steps {
        let mut outs = [0, 1].map(|_| vec![2.0_f32; step.call.levels()]);
        let [of_c, of_apart] = &mut outs;
        assert_eq!(c.call(&step.call, of_c), step.refusal);
        assert_eq!(apart.call(&step.call, of_apart), step.refusal);
        assert_eq!(of_c, of_apart);
        // All but the version.
        assert!(apart.state() == c.state()[..BYTES - 4]);
    }
}

/// By either name a chord has the same answer and leaves the same bank.
#[test]
fn a_chord_by_either_name() {
    let mut banks = [LiveBank::zeros(), LiveBank::zeros()];
    for bank in &mut banks {
        let amp = Settings::from(&EnvelopeParams::AMP);
        assert_eq!(bank.open(3, &amp, &Timing::new(1e3)), 0);
    }
    let [header, live] = &mut banks;
    for (voices, kind, refusal) in [
        (&[2, 0][..], 0, 0),
        (&[1], 2, 0),
        (&[], 1, 0),
        (&[0, 0], 3, 10),
        (&[1, 3, 1], 0, 12),
        (&[0; 65], 1, 12),
        (&[1, 3], 0, 2),
    ] {
        assert_eq!(header.chord(voices, kind), refusal);
        assert_eq!(live.live_chord(voices, kind), refusal);
        assert!(header.bytes() == live.bytes());
    }
    let mut stages = [0; 3];
    for (voice, stage) in stages.iter_mut().enumerate() {
        assert_eq!(live.stage(voice, stage), 0);
    }
    assert_eq!(stages, [2, 2, 2]);
}

/// A bank that was never opened has whatever bytes; what a refused reading was
/// to write to stays.
#[test]
fn a_bank_of_zeros() {
    assert!(agrees());
    let mut bank = LiveBank::zeros();
    assert_eq!(bank.bytes(), [0; BYTES]);
    assert_eq!((bank.voices(), bank.stride()), (0, 16));
    let mut stage = 7;
    assert_eq!((bank.stage(0, &mut stage), stage), (2, 7));
    let mut frame = [2.0; 17];
    assert_eq!(bank.process(&mut frame), 5);
    assert_eq!(frame, [2.0; 17]);
    assert_eq!(bank.bytes(), [0; BYTES]);
}
