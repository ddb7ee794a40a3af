//! The thread's floating-point mode neither changes the levels nor is changed.
#![allow(unsafe_code)]

use std::arch::asm;

use worfelli::{
    EnvelopeBank, EnvelopeParams, Event, List, Refusal, Refused, Stage, Timing, Trigger, play,
    refused_at,
};

const DEFAULT: u32 = 0x1f80;
const FLUSH_TO_ZERO: u32 = 0x8000;
const DENORMALS_ARE_ZERO: u32 = 0x0040;
const ROUND_DOWN: u32 = 0x2000;
const ROUND_UP: u32 = 0x4000;
const ROUND_TO_ZERO: u32 = 0x6000;
/// A flag that earlier arithmetic left.
const DIVIDED_BY_ZERO: u32 = 0x0004;

const MODES: [u32; 8] = [
    DEFAULT,
    DEFAULT | FLUSH_TO_ZERO | DENORMALS_ARE_ZERO,
    DEFAULT | FLUSH_TO_ZERO,
    DEFAULT | DENORMALS_ARE_ZERO,
    DEFAULT | ROUND_DOWN,
    DEFAULT | ROUND_UP,
    DEFAULT | ROUND_TO_ZERO | DIVIDED_BY_ZERO,
    // No exception is masked: a rounded sum would end the program.
    0,
];

const FRAMES: usize = 20;
const BYTES: usize = 4 * 16 * FRAMES;

unsafe extern "C" {
    fn worfelli_play(list: *const u8, list_len: usize, out: *mut u8, out_len: usize) -> i64;
}

/// The library's function as it is, in the mode that the thread has.
fn unguarded(list: &[u8], out: &mut [u8]) -> Option<usize> {
    // SAFETY: pointers and lengths of two slices that do not overlap.
    let frames = unsafe { worfelli_play(list.as_ptr(), list.len(), out.as_mut_ptr(), out.len()) };
    usize::try_from(frames).ok()
}

fn guarded(list: &[u8], out: &mut [u8]) -> Option<usize> {
    play(list, out).ok()
}

fn mode() -> u32 {
    let mut mode = 0;
    // SAFETY: stores the register in the variable.
    unsafe { asm!("stmxcsr [{}]", in(reg) &raw mut mode, options(nostack)) };
    mode
}

fn set_mode(mode: u32) {
    // SAFETY: loads the register from the variable. Rust takes the default mode for granted, so no code
    // of this file that runs in another one computes with floats.
    unsafe { asm!("ldmxcsr [{}]", in(reg) &raw const mode, options(nostack)) };
}

/// What `call` answers in a mode, and the mode that it leaves.
fn under<T>(other: u32, call: impl FnOnce() -> T) -> (T, u32) {
    let before = mode();
    set_mode(other);
    let answer = call();
    let after = mode();
    set_mode(before);
    (answer, after)
}

/// A fall to a subnormal level, with others on the way, and a release to another one.
const PARAMS: EnvelopeParams = EnvelopeParams {
    attack: 3.0,
    decay: 7.0,
    sustain: 1e-39,
    release: 5.0,
    decay_curve: 0.5,
    end: 3e-40,
    ..EnvelopeParams::AMP
};

/// The same with a bent attack, and with times that are halves of a frame, for which rounding counts.
const BENT: EnvelopeParams = EnvelopeParams {
    attack: 4.5,
    decay: 6.5,
    release: 5.5,
    attack_curve: 0.7,
    ..PARAMS
};

fn list() -> List {
    List::from([
        Event::Open {
            voices: 1,
            timing: Timing::new(1000.0),
            params: PARAMS,
        },
        Event::Trigger {
            voice: 0,
            trigger: Trigger::New,
        },
        Event::Frames(13),
        Event::Release(0),
        Event::Frames(7),
    ])
}

type Play = fn(&[u8], &mut [u8]) -> Option<usize>;

/// The bytes that a function writes in a mode, and the mode that it leaves.
fn played(play: Play, mode: u32) -> ([u8; BYTES], u32) {
    let list = list();
    let mut out = [7; BYTES];
    let (answer, after) = under(mode, || play(list.as_bytes(), &mut out));
    assert_eq!(answer, Some(FRAMES));
    (out, after)
}

#[test]
fn levels_are_the_same_in_every_mode() {
    let (expected, _) = played(guarded, DEFAULT);
    for mode in MODES {
        let (bytes, after) = played(guarded, mode);
        assert!(bytes == expected, "levels in mode {mode:#x}");
        assert_eq!(after, mode);
    }
}

#[test]
fn levels_would_differ_without_the_guard() {
    let (expected, _) = played(unguarded, DEFAULT);
    assert_eq!(played(guarded, DEFAULT).0, expected);
    let subnormal = |level: &[u8]| f32::from_le_bytes(level.try_into().unwrap()).is_subnormal();
    assert!(expected.chunks(4).any(subnormal));

    for mode in [
        FLUSH_TO_ZERO | DENORMALS_ARE_ZERO,
        FLUSH_TO_ZERO,
        DENORMALS_ARE_ZERO,
        ROUND_UP,
    ] {
        let (bytes, _) = played(unguarded, DEFAULT | mode);
        assert!(bytes != expected, "the library's levels with {mode:#x} set");
    }
}

#[test]
fn refusals_are_the_same_in_every_mode() {
    // A subnormal delay: where no exception is masked, comparing it would end the program.
    let mut list = list().as_bytes().to_vec();
    list[29..33].copy_from_slice(&1_u32.to_le_bytes());
    let short = Refused {
        refusal: Refusal::OutputTooShort,
        at: list.len() - 7,
    };
    for mode in [
        DEFAULT,
        DEFAULT | FLUSH_TO_ZERO | DENORMALS_ARE_ZERO | ROUND_UP,
        0,
    ] {
        let mut out = [7; BYTES - 1];
        assert_eq!(under(mode, || play(&list, &mut out)), (Err(short), mode));
        assert_eq!(out, [7; BYTES - 1]);
        assert_eq!(
            under(mode, || refused_at(&list, BYTES - 1)),
            (Some(short.at), mode)
        );
        assert_eq!(under(mode, || refused_at(&list, BYTES)), (None, mode));
    }
}

/// What a bank answered and wrote.
#[derive(Default)]
struct Lived {
    levels: Vec<f32>,
    counts: Vec<u64>,
    stages: Vec<Stage>,
    params: Vec<EnvelopeParams>,
    bytes: Vec<u8>,
}

impl Lived {
    fn frames(&mut self, bank: &mut EnvelopeBank, frames: usize) -> Result<(), Refusal> {
        let from = self.levels.len();
        self.levels.resize(from + frames * bank.stride(), 0.0);
        bank.process(&mut self.levels[from..])?;
        for voice in 0..bank.voices() {
            self.levels.push(bank.level(voice)?);
            self.counts.extend([bank.tail(voice)?, bank.lead(voice)?]);
            self.counts.push(bank.is_idle(voice)?.into());
            self.stages.push(bank.stage(voice)?);
            self.params.push(bank.params(voice)?);
        }
        Ok(())
    }

    /// All of it as bytes, to be compared bit by bit.
    fn seen(&self) -> Vec<u8> {
        let levels = self.levels.iter().flat_map(|level| level.to_le_bytes());
        let counts = self.counts.iter().flat_map(|count| count.to_le_bytes());
        let stages = self.stages.iter().map(|&stage| stage as u8);
        let params = self.params.iter().copied().map(Event::SettingsForAll);
        let params = params.collect::<List>();
        levels
            .chain(counts)
            .chain(stages)
            .chain(params.as_bytes().iter().copied())
            .chain(self.bytes.iter().copied())
            .collect()
    }
}

/// Every call and reading of a bank.
fn live() -> Result<Lived, Refusal> {
    let mut lived = Lived::default();
    let mut bank = EnvelopeBank::new(3, BENT, Timing::new(1000.0))?;
    bank.trigger(0, Trigger::New)?;
    lived.frames(&mut bank, 3)?;
    bank.trigger(1, Trigger::Retrigger)?;
    bank.set_params(1, PARAMS)?;
    lived.frames(&mut bank, 11)?;
    bank.set_timing(Timing::new(999.0).with_scale(1.1))?;
    bank.release(0)?;
    lived.frames(&mut bank, 2)?;
    bank.trigger(0, Trigger::Legato)?;
    bank.join(2, 1)?;
    bank.set_all_params(BENT)?;
    lived.frames(&mut bank, 5)?;
    bank.reset(2)?;
    lived.frames(&mut bank, 7)?;
    bank.chord(&[2, 0], Trigger::New)?;
    lived.frames(&mut bank, 9)?;
    lived.bytes.extend(bank.as_bytes());
    Ok(lived)
}

#[test]
fn a_bank_is_the_same_in_every_mode() {
    let expected = live().unwrap();
    assert!(expected.levels.iter().any(|level| level.is_subnormal()));
    assert!(expected.counts.iter().any(|&count| count > 1));
    for mode in MODES {
        let (lived, after) = under(mode, live);
        assert!(
            lived.unwrap().seen() == expected.seen(),
            "in mode {mode:#x}"
        );
        assert_eq!(after, mode);
    }
}

#[test]
fn a_bank_refuses_the_same_in_every_mode() {
    // A subnormal delay, as above.
    let over = EnvelopeParams {
        delay: f32::from_bits(1),
        hold: 2_000_000.0,
        ..BENT
    };
    let timing = Timing::new(1000.0);
    for mode in MODES {
        let (bank, after) = under(mode, || EnvelopeBank::new(1, over, timing));
        assert_eq!((bank.err(), after), (Some(Refusal::TimeOver), mode));
        let mut bank = EnvelopeBank::new(1, BENT, timing).unwrap();
        let mut out = [7.0; 17];
        let answers = under(mode, || {
            [
                bank.set_params(0, over),
                bank.set_all_params(over),
                bank.set_timing(Timing::new(2_000_000.0)),
                bank.trigger(1, Trigger::New),
                bank.chord(&[0, 0], Trigger::New),
                bank.chord(&[0, 1], Trigger::New),
                bank.process(&mut out),
                bank.level(1).map(drop),
                bank.lead(1).map(drop),
            ]
        });
        let numbers = answers.0.map(|answer| answer.unwrap_err().number());
        assert_eq!((numbers, answers.1), ([3, 3, 4, 2, 12, 2, 5, 2, 2], mode));
        assert_eq!(out.map(f32::to_bits), [7_f32.to_bits(); 17]);
    }
}

#[test]
fn a_list_is_as_much_in_every_mode() {
    let mut bytes = list().as_bytes().to_vec();
    bytes[29..33].copy_from_slice(&1_u32.to_le_bytes());
    let list = List::from_bytes(bytes).unwrap();
    for mode in MODES {
        let (answers, after) = under(mode, || (list.frames(), list.voices(), list.levels()));
        assert_eq!((answers, after), ((Ok(20), Ok(1), Ok(320)), mode));
    }
}
