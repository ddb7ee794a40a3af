//! The live bank: what it answers, what it refuses, and that it goes on as it should.

mod random;

use random::Random;
use worfelli::{
    EnvelopeBank, EnvelopeParams, Event, List, OtherVersion, Refusal, Stage, StealRestart,
    TimeUnit, Timing, Trigger, play_levels, stride,
};

const RATE: Timing = Timing::new(1000.0);

/// Two frames of delay, four of attack, one of hold, two of decay, five of release.
const PARAMS: EnvelopeParams = EnvelopeParams {
    delay: 2.0,
    attack: 4.0,
    hold: 1.0,
    decay: 2.0,
    sustain: 0.5,
    release: 5.0,
    attack_curve: 0.5,
    decay_curve: 0.5,
    release_curve: 0.5,
    ..EnvelopeParams::AMP
};

const OVER: EnvelopeParams = EnvelopeParams {
    hold: 1_048_577.0,
    ..PARAMS
};

fn opened(voices: usize) -> EnvelopeBank {
    EnvelopeBank::new(voices, PARAMS, RATE).unwrap()
}

/// A bank in which voice 1 of 20 releases and voice 2 rises.
fn sounding() -> EnvelopeBank {
    let mut bank = opened(20);
    bank.trigger(1, Trigger::New).unwrap();
    bank.process(&mut vec![0.0; 20 * bank.stride()]).unwrap();
    bank.release(1).unwrap();
    bank.trigger(2, Trigger::New).unwrap();
    bank.process(&mut vec![0.0; 3 * bank.stride()]).unwrap();
    bank
}

/// What a bank does on an event other than an open. The levels of frames are added to `levels`.
fn apply(bank: &mut EnvelopeBank, event: Event, levels: &mut Vec<f32>) -> Result<(), Refusal> {
    match event {
        Event::Settings { voice, params } => bank.set_params(voice.into(), params),
        Event::SettingsForAll(params) => bank.set_all_params(params),
        Event::Timing(timing) => bank.set_timing(timing),
        Event::Trigger { voice, trigger } => bank.trigger(voice.into(), trigger),
        Event::Release(voice) => bank.release(voice.into()),
        Event::Reset(voice) => bank.reset(voice.into()),
        Event::Join { voice, from } => bank.join(voice.into(), from.into()),
        Event::Frames(count) => {
            let from = levels.len();
            levels.resize(from + count as usize * bank.stride(), 7.0);
            bank.process(&mut levels[from..])
        }
        _ => panic!("no call of an open bank: {event:?}"),
    }
}

/// Some of so many voices, each once, in any order.
fn some_of(random: &mut Random, voices: u8) -> Vec<usize> {
    let mut left: Vec<usize> = (0..voices.into()).collect();
    let count = random.below(u16::from(voices) + 1);
    let mut pick = || left.swap_remove(usize::from(random.byte()) % left.len());
    (0..count).map(|_| pick()).collect()
}

/// One voice more than a chord may have.
fn too_many() -> [usize; 65] {
    std::array::from_fn(|voice| voice)
}

/// Bits, since `==` takes -0 for +0 and NaN for nothing.
fn bits(levels: &[f32]) -> Vec<u32> {
    levels.iter().map(|level| level.to_bits()).collect()
}

/// The next frames of a bank.
fn drawn(bank: &mut EnvelopeBank, frames: usize) -> Vec<u32> {
    let mut out = vec![7.0; frames * bank.stride()];
    bank.process(&mut out).unwrap();
    bits(&out)
}

#[test]
fn a_fresh_bank() {
    for (voices, levels) in [(0, 16), (1, 16), (16, 16), (17, 32), (33, 48), (64, 64)] {
        let params = EnvelopeParams {
            end: 0.25,
            ..PARAMS
        };
        let mut bank = EnvelopeBank::new(voices, params, RATE).unwrap();
        assert_eq!(bank.voices(), voices);
        assert_eq!(bank.stride(), levels);
        for voice in 0..voices {
            assert_eq!(bank.params(voice), Ok(params));
            assert_eq!(bank.stage(voice), Ok(Stage::Idle));
            assert_eq!(bank.level(voice), Ok(0.25));
            assert_eq!(bank.is_idle(voice), Ok(true));
            assert_eq!(bank.tail(voice), Ok(0));
            assert_eq!(bank.lead(voice), Ok(0));
        }
        let frame: Vec<f32> = (0..levels)
            .map(|lane| if lane < voices { 0.25 } else { 0.0 })
            .collect();
        assert_eq!(drawn(&mut bank, 3), bits(&frame.repeat(3)));
    }
}

#[test]
fn a_note() {
    use Stage::{Attack, Decay, Delay, Hold, Idle, Release, Sustain};
    let mut bank = opened(1);
    bank.trigger(0, Trigger::New).unwrap();
    let mut readings = Vec::new();
    for frame in 0..16 {
        if frame == 10 {
            bank.release(0).unwrap();
        }
        readings.push((
            bank.stage(0).unwrap(),
            bank.lead(0).unwrap(),
            bank.tail(0).unwrap(),
        ));
        let next = bank.level(0).unwrap();
        let mut out = [7.0; 16];
        bank.process(&mut out).unwrap();
        assert_eq!(out[0].to_bits(), next.to_bits());
        assert_eq!(bits(&out[1..]), [0; 15]);
    }
    let expected = [
        (Delay, 9, 5),
        (Delay, 8, 5),
        (Attack, 7, 5),
        (Attack, 6, 5),
        (Attack, 5, 5),
        (Attack, 4, 5),
        (Hold, 3, 5),
        (Decay, 2, 5),
        (Decay, 1, 5),
        (Sustain, 0, 5),
        (Release, 0, 5),
        (Release, 0, 5),
        (Release, 0, 5),
        (Release, 0, 5),
        (Release, 0, 5),
        (Idle, 0, 0),
    ];
    assert_eq!(readings, expected);
    assert_eq!(bank.is_idle(0), Ok(true));
}

#[test]
fn settings_come_back() {
    let mut bank = opened(3);
    let params = EnvelopeParams {
        unit: TimeUnit::Tempo,
        delay: 1.0,
        attack: 2.0,
        hold: 3.0,
        decay: 4.0,
        sustain: 5.0,
        release: 6.0,
        attack_curve: 7.0,
        decay_curve: 8.0,
        release_curve: -0.0,
        start: f32::NEG_INFINITY,
        end: f32::INFINITY,
        legato_inverted: true,
        steal_restart: StealRestart::StartLevel,
    };
    bank.set_params(1, params).unwrap();
    assert_eq!(bank.params(0), Ok(PARAMS));
    assert_eq!(bank.params(1), Ok(params));
    assert_eq!(
        bank.params(1).map(|params| params.release_curve.to_bits()),
        Ok(0x8000_0000)
    );
    bank.set_all_params(EnvelopeParams::MODULATION).unwrap();
    for voice in 0..3 {
        assert_eq!(bank.params(voice), Ok(EnvelopeParams::MODULATION));
    }
    bank.set_params(2, params).unwrap();
    bank.join(0, 2).unwrap();
    assert_eq!(bank.params(0), Ok(params));
}

#[test]
fn refused_openings() {
    let over = Timing::new(1_048_577.0);
    let cases = [
        (64, PARAMS, RATE, None),
        (65, PARAMS, RATE, Some(Refusal::TooManyVoices)),
        (usize::MAX, OVER, over, Some(Refusal::TooManyVoices)),
        (1 << 32, PARAMS, RATE, Some(Refusal::TooManyVoices)),
        (64, OVER, over, Some(Refusal::RateOver)),
        (0, OVER, RATE, Some(Refusal::TimeOver)),
    ];
    for (voices, params, timing, refusal) in cases {
        let bank = EnvelopeBank::new(voices, params, timing);
        assert_eq!(bank.err(), refusal, "{voices} {params:?} {timing:?}");
    }
}

#[test]
fn refused_calls_change_nothing() {
    use Refusal::{NoSuchVoice, NotAChord, NotWholeFrames, RateOver, TimeOver};
    type Call = fn(&mut EnvelopeBank) -> Result<(), Refusal>;
    let cases: [(Call, Refusal); 28] = [
        (|bank| bank.set_params(20, OVER), NoSuchVoice),
        (|bank| bank.set_params(2, OVER), TimeOver),
        (|bank| bank.set_all_params(OVER), TimeOver),
        (|bank| bank.set_timing(Timing::new(f64::INFINITY)), RateOver),
        (|bank| bank.trigger(20, Trigger::New), NoSuchVoice),
        (
            |bank| bank.trigger(usize::MAX, Trigger::Legato),
            NoSuchVoice,
        ),
        (|bank| bank.chord(&[20], Trigger::New), NoSuchVoice),
        (|bank| bank.chord(&[0, 2, 20], Trigger::New), NoSuchVoice),
        (
            |bank| bank.chord(&[20, 0, usize::MAX], Trigger::Retrigger),
            NoSuchVoice,
        ),
        (
            |bank| bank.chord(&[2, (1 << 32) + 2], Trigger::New),
            NoSuchVoice,
        ),
        (|bank| bank.chord(&[2, 2], Trigger::Legato), NotAChord),
        (|bank| bank.chord(&[0, 1, 2, 0], Trigger::New), NotAChord),
        (|bank| bank.chord(&[100, 100], Trigger::New), NotAChord),
        (|bank| bank.chord(&[20, 2, 2], Trigger::New), NotAChord),
        (
            |bank| bank.chord(&[0, usize::MAX, 1, usize::MAX], Trigger::New),
            NotAChord,
        ),
        (|bank| bank.chord(&too_many(), Trigger::New), NotAChord),
        (|bank| bank.release(20), NoSuchVoice),
        (|bank| bank.release((1 << 32) + 2), NoSuchVoice),
        (|bank| bank.reset(64), NoSuchVoice),
        (|bank| bank.join(20, 2), NoSuchVoice),
        (|bank| bank.join(2, 20), NoSuchVoice),
        (|bank| bank.process(&mut [7.0; 33]), NotWholeFrames),
        (|bank| bank.params(20).map(drop), NoSuchVoice),
        (|bank| bank.stage(20).map(drop), NoSuchVoice),
        (|bank| bank.level(usize::MAX).map(drop), NoSuchVoice),
        (|bank| bank.is_idle(20).map(drop), NoSuchVoice),
        (|bank| bank.tail(20).map(drop), NoSuchVoice),
        (|bank| bank.lead(20).map(drop), NoSuchVoice),
    ];
    let mut bank = sounding();
    let before = *bank.as_bytes();
    for (at, (call, refusal)) in cases.into_iter().enumerate() {
        assert_eq!(call(&mut bank), Err(refusal), "case {at}");
        assert!(*bank.as_bytes() == before, "the bank after case {at}");
    }
}

#[test]
fn a_chord_is_its_triggers_one_by_one() {
    let mut random = Random::new(0xacc0);
    for take in 0..300 {
        let voices = [1, 2, 16, 17, 40, 64][take % 6];
        let trigger = [Trigger::New, Trigger::Retrigger, Trigger::Legato][take / 6 % 3];
        let (params, timing) = (random.params(), random.timing());
        let mut bank = EnvelopeBank::new(voices.into(), params, timing).unwrap();
        for _ in 0..40 {
            apply(&mut bank, random.event(voices), &mut Vec::new()).unwrap();
        }
        let mut one_by_one = bank.clone();
        let chord = some_of(&mut random, voices);
        assert_eq!(bank.chord(&chord, trigger), Ok(()));
        for &voice in &chord {
            one_by_one.trigger(voice, trigger).unwrap();
        }
        assert!(bank.as_bytes() == one_by_one.as_bytes(), "{chord:?}");
        assert!(drawn(&mut bank, 40) == drawn(&mut one_by_one, 40));
    }
}

#[test]
fn how_many_voices_a_chord_has() {
    let all = too_many();
    for voices in [0, 20] {
        let mut bank = opened(voices);
        let before = *bank.as_bytes();
        // One that points into an array, and one that dangles.
        for none in [&all[65..], Vec::new().as_slice()] {
            assert_eq!(bank.chord(none, Trigger::New), Ok(()));
            assert!(*bank.as_bytes() == before);
        }
    }
    for count in [1, 2, 63, 64] {
        let mut bank = opened(64);
        assert_eq!(bank.chord(&all[..count], Trigger::New), Ok(()));
        for voice in 0..64 {
            assert_eq!(bank.is_idle(voice), Ok(voice >= count), "{count}");
        }
    }
    let refused = opened(64).chord(&all, Trigger::New);
    assert_eq!(refused, Err(Refusal::NotAChord));
}

#[test]
fn an_output_is_whole_frames_or_untouched() {
    let mut bank = sounding();
    let before = *bank.as_bytes();
    for len in [1, 16, 31, 33, 65] {
        let mut out = vec![7.0; len];
        assert_eq!(bank.process(&mut out), Err(Refusal::NotWholeFrames));
        assert_eq!(bits(&out), vec![7_f32.to_bits(); len]);
        assert!(*bank.as_bytes() == before);
    }
    assert_eq!(bank.process(&mut []), Ok(()));
    assert!(*bank.as_bytes() == before);
    assert_eq!(bank.process(&mut [7.0; 64]), Ok(()));
    assert!(*bank.as_bytes() != before);
}

#[test]
fn refusals_say_what_they_are() {
    let refusal = opened(1).process(&mut [7.0; 15]).unwrap_err();
    assert_eq!(refusal.number(), 5);
    assert_eq!(
        refusal.to_string(),
        "levels that are no whole number of frames"
    );
    let refusal = opened(1).chord(&[0, 0], Trigger::New).unwrap_err();
    assert_eq!(refusal.number(), 12);
    assert_eq!(
        refusal.to_string(),
        "a chord that names a voice twice or has over 64 entries"
    );
    let error: Box<dyn std::error::Error> = opened(1).release(1).unwrap_err().into();
    assert_eq!(error.to_string(), "no such voice");
}

#[test]
fn blocks_may_be_cut_anywhere() {
    let whole = drawn(&mut sounding(), 60);
    for block in [1, 2, 7, 16, 59] {
        let mut bank = sounding();
        let mut cut = Vec::new();
        while cut.len() < whole.len() {
            let left = (whole.len() - cut.len()) / bank.stride();
            cut.extend(drawn(&mut bank, block.min(left)));
        }
        assert!(cut == whole, "blocks of {block}");
    }
}

#[test]
fn a_bank_plays_what_a_list_plays() {
    let mut random = Random::new(0x5eed);
    for take in 0..200 {
        let voices = [1, 2, 16, 17, 40, 64][take % 6];
        let (params, timing) = (random.params(), random.timing());
        let mut bank = EnvelopeBank::new(voices.into(), params, timing).unwrap();
        let mut list = List::from([Event::Open {
            voices,
            timing,
            params,
        }]);
        let mut levels = Vec::new();
        for _ in 0..60 {
            let event = random.event(voices);
            list.push(event);
            apply(&mut bank, event, &mut levels).unwrap();
        }
        assert_eq!(list.levels(), Ok(levels.len()));
        let mut played = vec![9.0; levels.len()];
        assert_eq!(
            play_levels(list.as_bytes(), &mut played),
            Ok(levels.len() / stride(voices))
        );
        assert!(bits(&played) == bits(&levels), "take {take}");
    }
}

#[test]
fn a_copy_goes_on_as_the_bank_does() {
    let mut bank = sounding();
    let mut clone = bank.clone();
    let mut restored = EnvelopeBank::from_bytes(bank.as_bytes()).unwrap();
    let mut random = Random::new(0xc0de);
    let mut levels = [Vec::new(), Vec::new(), Vec::new()];
    for _ in 0..200 {
        let event = random.event(20);
        let banks = [&mut bank, &mut clone, &mut restored];
        for (bank, levels) in banks.into_iter().zip(&mut levels) {
            apply(bank, event, levels).unwrap();
        }
    }
    let [levels, of_clone, of_restored] = levels.map(|levels| bits(&levels));
    assert!(of_clone == levels);
    assert!(of_restored == levels);
    assert!(clone.as_bytes() == bank.as_bytes());
    assert!(restored.as_bytes() == bank.as_bytes());

    // A copy is no part of the bank.
    let before = *clone.as_bytes();
    bank.set_all_params(PARAMS).unwrap();
    assert!(*clone.as_bytes() == before);
    assert!(bank.as_bytes() != clone.as_bytes());
}

#[test]
fn bytes_of_another_version() {
    assert_eq!(EnvelopeBank::SIZE, 9088);
    let mut bytes = *sounding().as_bytes();
    assert_eq!(bytes[9084..], 1_u32.to_le_bytes());
    bytes[9084] = 7;
    let error = EnvelopeBank::from_bytes(&bytes).unwrap_err();
    assert_eq!(error, OtherVersion { version: 7 });
    assert_eq!(error.to_string(), "a bank of version 7, not of version 1");
    let error = EnvelopeBank::from_bytes(&[0; EnvelopeBank::SIZE]).unwrap_err();
    assert_eq!(error, OtherVersion { version: 0 });
}

/// Banks of versions 1 and 2 lie alike.
#[test]
fn bytes_of_a_version_that_lies_alike() {
    let mut bytes = *sounding().as_bytes();
    let levels = drawn(&mut sounding(), 40);
    for version in [1, 2] {
        bytes[9084] = version;
        let mut bank = EnvelopeBank::from_bytes(&bytes).unwrap();
        assert!(*bank.as_bytes() == bytes);
        assert!(drawn(&mut bank, 40) == levels);
    }
    bytes[9084] = 3;
    let error = EnvelopeBank::from_bytes(&bytes).unwrap_err();
    assert_eq!(error, OtherVersion { version: 3 });
}

#[test]
fn any_bytes_are_a_bank() {
    let mut random = Random::new(0xdead);
    for damage in 0..200 {
        let mut bytes = *sounding().as_bytes();
        for byte in &mut bytes[..9084] {
            if damage % 2 == 0 || random.below(50) == 0 {
                *byte = random.byte();
            }
        }
        let mut bank = EnvelopeBank::from_bytes(&bytes).unwrap();
        let voices = u8::try_from(bank.voices()).unwrap();
        assert!(voices <= 64);
        assert_eq!(bank.stride(), stride(voices));
        for voice in 0..bank.voices() {
            assert!(bank.params(voice).is_ok());
            assert_eq!(
                bank.is_idle(voice),
                bank.stage(voice).map(|stage| stage == Stage::Idle)
            );
            assert!(bank.level(voice).is_ok() && bank.tail(voice).is_ok());
            assert!(bank.lead(voice).is_ok());
        }
        if voices > 0 {
            for _ in 0..30 {
                apply(&mut bank, random.event(voices), &mut Vec::new()).unwrap();
            }
        }
    }
}

#[test]
fn debug_is_short() {
    assert_eq!(
        format!("{:?}", sounding()),
        "EnvelopeBank { voices: 20, sounding: {1: Release, 2: Attack} }"
    );
    assert_eq!(
        format!("{:?}", opened(0)),
        "EnvelopeBank { voices: 0, sounding: {} }"
    );
}

#[test]
fn a_bank_may_go_to_another_thread() {
    let mut bank = sounding();
    let here = drawn(&mut bank.clone(), 30);
    let there = std::thread::spawn(move || drawn(&mut bank, 30));
    assert!(there.join().unwrap() == here);
}
