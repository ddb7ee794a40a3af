//! What the measurements ask of banks over C and of the crate of hosts/rust is
//! what they get of the Rust's, bit by bit; of one voice also what they get of
//! the Rust's single envelope.

use compare::live::functions::LiveBank;
use compare::measured::Measured;
use compare::measured::asked::{Chord, KINDS, Kind, Opening, QUERIES, Query, Sound};
use compare::rust::envelope::{Envelope, EnvelopeBank, Trigger};

const SOUND: Sound = Sound {
    sample_rate: 48_000.0,
    attack: 5.0,
    decay: 20.0,
    sustain: 0.25,
};

fn opening(voices: usize, notes: u32) -> Opening {
    Opening {
        sound: SOUND,
        voices,
        notes,
    }
}

/// Calls of these kinds with blocks after each, these readings, and new
/// openings: the levels' bits and the sums. The lanes beside the voices are
/// silent.
fn asked_of<M: Measured>(opening: Opening, kinds: &[Kind], queries: &[Query]) -> Vec<u64> {
    let mut measured = M::triggered(opening);
    let mut out = vec![2.0; 300 * M::levels(opening.voices)];
    let mut answers = Vec::new();
    let mut note = |out: &[f32]| {
        for frame in out.chunks_exact(M::levels(opening.voices)) {
            let (voices, beside) = frame.split_at(opening.voices);
            answers.extend(voices.iter().map(|level| u64::from(level.to_bits())));
            assert!(beside.iter().all(|level| level.to_bits() == 0));
        }
    };
    let mut sums = Vec::new();
    for (calls, kind) in (40..).zip(kinds) {
        measured.calls(opening.sound, *kind, calls);
        measured.blocks(&mut out, 2);
        note(&out);
        sums.extend(queries.iter().map(|query| measured.readings(*query, 70)));
    }
    measured.opens(opening, 2);
    measured.blocks(&mut out, 1);
    note(&out);
    answers.extend(sums);
    answers
}

/// Two chords of so many voices by each kind of trigger, and blocks after them:
/// the levels' bits.
fn chords_of<M: Measured>(opening: Opening, voices: usize) -> Vec<u32> {
    let mut measured = M::triggered(opening);
    let mut out = vec![2.0; 300 * M::levels(opening.voices)];
    let mut answers = Vec::new();
    for trigger in [Trigger::New, Trigger::Retrigger, Trigger::Legato] {
        measured.chords(opening.sound, Chord { trigger, voices }, 2);
        measured.blocks(&mut out, 2);
        answers.extend(out.iter().map(|level| level.to_bits()));
    }
    answers
}

#[test]
fn chords() {
    for (opening, voices) in [
        (opening(64, 40), 4),
        (opening(64, 64), 64),
        (opening(18, 9), 6),
        (opening(1, 0), 1),
    ] {
        let rust = chords_of::<EnvelopeBank>(opening, voices);
        let over_c = chords_of::<LiveBank>(opening, voices);
        assert_eq!(over_c, rust, "C, {opening:?}");
        let through_crate = chords_of::<worfelli::EnvelopeBank>(opening, voices);
        assert_eq!(through_crate, rust, "the crate, {opening:?}");
    }
}

#[test]
fn banks() {
    for opening in [
        opening(64, 64),
        opening(1, 1),
        opening(17, 9),
        opening(3, 0),
    ] {
        let rust = asked_of::<EnvelopeBank>(opening, &KINDS, &QUERIES);
        let over_c = asked_of::<LiveBank>(opening, &KINDS, &QUERIES);
        assert_eq!(over_c, rust, "C, {opening:?}");
        let through_crate = asked_of::<worfelli::EnvelopeBank>(opening, &KINDS, &QUERIES);
        assert_eq!(through_crate, rust, "the crate, {opening:?}");
    }
}

#[test]
fn one_voice() {
    let kinds: Vec<Kind> = KINDS
        .into_iter()
        .filter(|kind| *kind != Kind::Join)
        .collect();
    for notes in [0, 1] {
        let opening = opening(1, notes);
        let rust = asked_of::<Envelope>(opening, &kinds, &QUERIES[..6]);
        let bank = asked_of::<LiveBank>(opening, &kinds, &QUERIES[..6]);
        assert_eq!(bank, rust, "{notes} notes");
    }
}
