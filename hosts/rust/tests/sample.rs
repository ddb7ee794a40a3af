//! The sample list of docs/FORMAT.md, byte for byte, and lists built from events.

use worfelli::{
    EnvelopeParams, Event, List, Refusal, Refused, StealRestart, TimeUnit, Timing, Trigger, play,
    play_levels, refused_at,
};

const LIST: &[u8] = include_bytes!("../../../examples/sample.list");
const LEVELS: &[u8] = include_bytes!("../../../examples/sample.levels");

const TIMING: Timing = Timing {
    sample_rate: 1000.0,
    tempo: 120.0,
    scale: 1.0,
};
const PARAMS: EnvelopeParams = EnvelopeParams {
    unit: TimeUnit::Milliseconds,
    delay: 2.0,
    attack: 4.0,
    hold: 1.0,
    decay: 2.0,
    sustain: 0.5,
    release: 2.0,
    attack_curve: 0.5,
    decay_curve: 0.5,
    release_curve: 0.5,
    start: 0.0,
    end: 0.0,
    legato_inverted: false,
    steal_restart: StealRestart::CurrentLevel,
};
const EVENTS: [Event; 3] = [
    Event::Open {
        voices: 1,
        timing: TIMING,
        params: PARAMS,
    },
    Event::Trigger {
        voice: 0,
        trigger: Trigger::New,
    },
    Event::Frames(10),
];

const TOO_SHORT: Result<usize, Refused> = Err(Refused {
    refusal: Refusal::OutputTooShort,
    at: 80,
});

/// The body of the only record in a list of `event`, whose tag and length have to be these.
fn body(event: Event, tag: u8, length: u8) -> Vec<u8> {
    let list = List::from([event]);
    let (head, body) = list.as_bytes().split_at(3);
    assert_eq!(head, [tag, length, 0]);
    assert_eq!(body.len(), usize::from(length));
    body.to_vec()
}

#[test]
fn plays_into_bytes() {
    for spare in 0..70 {
        let mut out = vec![7; 640 + spare];
        assert_eq!(play(LIST, &mut out), Ok(10));
        assert_eq!(out[..640], *LEVELS);
        assert!(
            out[640..].iter().all(|&byte| byte == 7),
            "bytes past the frames"
        );
    }
}

#[test]
fn plays_into_floats() {
    let mut out = [7.0; 170];
    assert_eq!(play_levels(LIST, &mut out), Ok(10));
    let bytes: Vec<u8> = out.iter().flat_map(|level| level.to_le_bytes()).collect();
    assert_eq!(bytes[..640], *LEVELS);
    assert!(
        out[160..]
            .iter()
            .all(|level| level.to_bits() == 7_f32.to_bits()),
        "levels past the frames"
    );
}

#[test]
fn plays_to_any_address() {
    let mut memory = [7; 640 + 15];
    let mut list = [0; 87 + 15];
    for at in 0..16 {
        list[at..at + 87].copy_from_slice(LIST);
        assert_eq!(play(&list[at..at + 87], &mut memory[at..at + 640]), Ok(10));
        assert_eq!(memory[at..at + 640], *LEVELS);
    }
}

#[test]
fn an_output_is_long_enough_or_untouched() {
    assert_eq!(play_levels(LIST, &mut [0.0; 160]), Ok(10));
    assert_eq!(play_levels(LIST, &mut [0.0; 159]), TOO_SHORT);
    assert_eq!(play_levels(LIST, &mut []), TOO_SHORT);
    for len in [0, 1, 636, 639] {
        let mut out = vec![7; len];
        assert_eq!(play(LIST, &mut out), TOO_SHORT);
        assert!(
            out.iter().all(|&byte| byte == 7),
            "output of a refused list"
        );
        assert_eq!(refused_at(LIST, len), Some(80));
    }
    for len in [640, 643, usize::MAX] {
        assert_eq!(refused_at(LIST, len), None);
    }
}

#[test]
fn events_make_the_sample() {
    let list = List::from(EVENTS);
    assert_eq!(list.as_bytes(), LIST);

    let mut pushed = List::new();
    assert_eq!(pushed.as_bytes(), []);
    for event in EVENTS {
        pushed.push(event);
    }
    assert_eq!(pushed, list);
    let mut extended = List::default();
    extended.extend(EVENTS);
    assert_eq!(extended, list);
    assert_eq!(EVENTS.into_iter().collect::<List>(), list);
}

#[test]
fn records_of_all_kinds() {
    // The sample's own numbers, where it has them.
    let timing = &LIST[4..28];
    let settings = &LIST[28..75];
    assert_eq!(
        body(
            Event::Settings {
                voice: 9,
                params: PARAMS
            },
            2,
            48
        ),
        [&[9], settings].concat()
    );
    assert_eq!(body(Event::SettingsForAll(PARAMS), 3, 47), settings);
    assert_eq!(body(Event::Timing(TIMING), 4, 24), timing);
    let kinds = [Trigger::New, Trigger::Retrigger, Trigger::Legato];
    for (code, trigger) in (0..).zip(kinds) {
        assert_eq!(
            body(Event::Trigger { voice: 63, trigger }, 5, 2),
            [63, code]
        );
    }
    assert_eq!(body(Event::Release(1), 6, 1), [1]);
    assert_eq!(body(Event::Reset(255), 7, 1), [255]);
    assert_eq!(body(Event::Join { voice: 3, from: 4 }, 8, 2), [3, 4]);
    assert_eq!(
        body(Event::Frames(0x1234_5678), 9, 4),
        [0x78, 0x56, 0x34, 0x12]
    );
}

#[test]
fn settings_in_their_order() {
    let params = EnvelopeParams {
        unit: TimeUnit::Tempo,
        delay: 1.0,
        attack: 2.0,
        hold: 3.0,
        decay: 4.0,
        sustain: 5.0,
        release: 6.0,
        attack_curve: 7.0,
        decay_curve: 8.0,
        release_curve: 9.0,
        start: 10.0,
        end: 11.0,
        legato_inverted: true,
        steal_restart: StealRestart::CurrentLevel,
    };
    let mut expected = vec![1];
    for number in [1_f32, 2.0, 3.0, 4.0, 5.0, 6.0, 7.0, 8.0, 9.0, 10.0, 11.0] {
        expected.extend(number.to_le_bytes());
    }
    expected.extend([1, 0]);
    assert_eq!(body(Event::SettingsForAll(params), 3, 47), expected);

    let restart = EnvelopeParams {
        steal_restart: StealRestart::StartLevel,
        ..PARAMS
    };
    assert_eq!(body(Event::SettingsForAll(restart), 3, 47)[45..], [0, 1]);
}

#[test]
fn usual_numbers() {
    // The column "Usual" of docs/FORMAT.md.
    let mut expected = vec![0];
    for number in [
        0_f32, 1.0, 0.0, 1000.0, 1.0, 15.0, 0.5, 0.666, 0.666, 0.0, 0.0,
    ] {
        expected.extend(number.to_le_bytes());
    }
    expected.extend([0, 0]);
    assert_eq!(
        body(Event::SettingsForAll(EnvelopeParams::AMP), 3, 47),
        expected
    );
    assert_eq!(EnvelopeParams::default(), EnvelopeParams::AMP);
    expected[5..9].copy_from_slice(&0.5_f32.to_le_bytes());
    expected[46] = 1;
    assert_eq!(
        body(Event::SettingsForAll(EnvelopeParams::MODULATION), 3, 47),
        expected
    );

    let bytes = |numbers: [f64; 3]| numbers.map(f64::to_le_bytes).concat();
    let usual = Timing::new(48_000.0);
    assert_eq!(
        body(Event::Timing(usual), 4, 24),
        bytes([48_000.0, 120.0, 1.0])
    );
    let other = usual.with_tempo(90.0).with_scale(2.0);
    assert_eq!(
        body(Event::Timing(other), 4, 24),
        bytes([48_000.0, 90.0, 2.0])
    );
}
