//! Levels in their places, and numbers that are none.

use worfelli::{
    EnvelopeParams, Event, List, MAX_VOICES, Refusal, Refused, TimeUnit, Timing, Trigger, play,
    play_levels, stride,
};

const RATE: Timing = Timing::new(1000.0);

/// At the sustain level from the first frame on.
const STILL: EnvelopeParams = EnvelopeParams {
    attack: 0.0,
    decay: 0.0,
    sustain: 0.25,
    release: 0.0,
    ..EnvelopeParams::AMP
};

/// The first levels of a new note on one voice.
fn note(timing: Timing, params: EnvelopeParams) -> Result<[f32; 4], Refused> {
    let list = List::from([
        Event::Open {
            voices: 1,
            timing,
            params,
        },
        Event::Trigger {
            voice: 0,
            trigger: Trigger::New,
        },
        Event::Frames(4),
    ]);
    let mut out = [7.0; 4 * stride(1)];
    assert_eq!(play_levels(list.as_bytes(), &mut out)?, 4);
    Ok([0, 1, 2, 3].map(|frame| out[frame * stride(1)]))
}

/// Bits, since `==` takes -0 for +0 and NaN for nothing.
fn bits<const N: usize>(levels: [f32; N]) -> [u32; N] {
    levels.map(f32::to_bits)
}

#[track_caller]
fn assert_note(timing: Timing, params: EnvelopeParams, expected: [f32; 4]) {
    assert_eq!(
        note(timing, params).map(bits),
        Ok(bits(expected)),
        "{timing:?} {params:?}"
    );
}

#[test]
fn strides() {
    let cases = [
        (0, 16),
        (1, 16),
        (15, 16),
        (16, 16),
        (17, 32),
        (32, 32),
        (33, 48),
        (64, 64),
    ];
    for (voices, levels) in cases {
        assert_eq!(stride(voices), levels);

        // Two frames, in which voice v is at v / 128.
        let mut list = List::from([Event::Open {
            voices,
            timing: RATE,
            params: STILL,
        }]);
        for voice in 0..voices {
            let params = EnvelopeParams {
                sustain: f32::from(voice) / 128.0,
                ..STILL
            };
            list.push(Event::Settings { voice, params });
            list.push(Event::Trigger {
                voice,
                trigger: Trigger::New,
            });
        }
        list.push(Event::Frames(1));
        let second = list.as_bytes().len();
        list.push(Event::Frames(1));
        let expected: Vec<f32> = (0..voices).map(|voice| f32::from(voice) / 128.0).collect();

        let mut out = vec![f32::NAN; 2 * levels];
        assert_eq!(play_levels(list.as_bytes(), &mut out), Ok(2));
        for frame in out.chunks(levels) {
            let (sounding, spare) = frame.split_at(usize::from(voices));
            assert_eq!(sounding, expected);
            assert!(spare.iter().all(|level| level.to_bits() == 0));
        }
        assert_eq!(
            play_levels(list.as_bytes(), &mut out[1..]),
            Err(Refused {
                refusal: Refusal::OutputTooShort,
                at: second
            })
        );
    }
    assert_eq!(MAX_VOICES, 64);
}

#[test]
fn no_frames() {
    let mut list = List::from([Event::Open {
        voices: 64,
        timing: RATE,
        params: STILL,
    }]);
    assert_eq!(play(list.as_bytes(), &mut []), Ok(0));
    list.push(Event::Frames(0));
    let mut out = [7; 9];
    assert_eq!(play(list.as_bytes(), &mut out), Ok(0));
    assert_eq!(out, [7; 9]);
    assert_eq!(play_levels(list.as_bytes(), &mut []), Ok(0));
}

#[test]
fn floats_and_bytes_agree() {
    let params = EnvelopeParams {
        unit: TimeUnit::Tempo,
        attack: 0.1,
        decay: 0.3,
        ..STILL
    };
    let mut list = List::from([Event::Open {
        voices: 20,
        timing: RATE,
        params,
    }]);
    for voice in 0..20 {
        list.push(Event::Trigger {
            voice,
            trigger: Trigger::New,
        });
        list.push(Event::Frames(7));
    }
    list.extend([
        Event::Timing(RATE.with_tempo(97.0).with_scale(1.5)),
        Event::Release(3),
        Event::Join { voice: 5, from: 19 },
        Event::SettingsForAll(EnvelopeParams {
            unit: TimeUnit::Tempo,
            release: 0.2,
            ..params
        }),
        Event::Trigger {
            voice: 4,
            trigger: Trigger::Retrigger,
        },
        Event::Trigger {
            voice: 6,
            trigger: Trigger::Legato,
        },
        Event::Reset(7),
        Event::Frames(100),
    ]);
    let mut bytes = vec![0; 4 * 240 * stride(20)];
    let mut levels = vec![0.0_f32; 240 * stride(20)];
    assert_eq!(play(list.as_bytes(), &mut bytes), Ok(240));
    assert_eq!(play_levels(list.as_bytes(), &mut levels), Ok(240));
    let same: Vec<u8> = levels
        .iter()
        .flat_map(|level| level.to_le_bytes())
        .collect();
    assert_eq!(same, bytes);
    assert!(
        levels.iter().any(|&level| 0.3 < level && level < 0.9),
        "levels that move"
    );
}

#[test]
fn levels_that_are_no_numbers() {
    let cases = [
        (0.25, 0.25),
        (-0.0, 0.0),
        (-1.0, 0.0),
        (2.0, 1.0),
        (f32::INFINITY, 1.0),
        (f32::NEG_INFINITY, 0.0),
        (f32::NAN, 0.0),
        (f32::from_bits(0xff80_0001), 0.0),
    ];
    for (sustain, level) in cases {
        assert_note(RATE, EnvelopeParams { sustain, ..STILL }, [level; 4]);
    }
}

#[test]
fn times_that_are_no_numbers() {
    let attack = |attack| EnvelopeParams { attack, ..STILL };
    assert_note(RATE, attack(2.0), [0.0, 0.5, 0.25, 0.25]);
    for time in [f32::NAN, f32::NEG_INFINITY, -1.0, -0.0] {
        assert_note(RATE, attack(time), [0.25; 4]);
    }
    let refused = Err(Refused {
        refusal: Refusal::TimeOver,
        at: 0,
    });
    assert_eq!(note(RATE, attack(f32::INFINITY)), refused);
}

#[test]
fn timings_that_are_no_numbers() {
    let attack = EnvelopeParams {
        attack: 1.0,
        ..STILL
    };
    let tempo = EnvelopeParams {
        unit: TimeUnit::Tempo,
        ..attack
    };
    for rate in [f64::NAN, f64::NEG_INFINITY, -1.0] {
        assert_note(Timing::new(rate), attack, [0.25; 4]);
    }
    let refused = Err(Refused {
        refusal: Refusal::RateOver,
        at: 0,
    });
    assert_eq!(note(Timing::new(f64::INFINITY), attack), refused);

    // A beat at a rate of 4 and 120 beats a minute is 2 frames, at 1 beat a minute 240.
    let rate = Timing::new(4.0);
    assert_note(rate, tempo, [0.0, 0.5, 0.25, 0.25]);
    assert_note(rate.with_tempo(f64::INFINITY), tempo, [0.25; 4]);
    for slow in [f64::NAN, f64::NEG_INFINITY, 0.0] {
        assert_eq!(
            note(rate.with_tempo(slow), tempo),
            note(rate.with_tempo(1.0), tempo)
        );
    }

    assert_note(rate.with_scale(f64::NAN), tempo, [0.25; 4]);
    assert_eq!(
        note(rate.with_scale(f64::INFINITY), tempo),
        note(rate.with_scale(10.0), tempo)
    );
    assert_note(rate.with_scale(f64::NEG_INFINITY), tempo, [0.25; 4]);
}

#[test]
fn a_list_has_the_bits_of_its_numbers() {
    let single = f32::from_bits(0xffa5_a5a5);
    let double = f64::from_bits(0x7ff0_dead_beef_0001);
    let list = List::from([
        Event::SettingsForAll(EnvelopeParams {
            delay: single,
            end: -single,
            ..STILL
        }),
        Event::Timing(Timing {
            sample_rate: double,
            tempo: -double,
            scale: -0.0,
        }),
    ]);
    let bytes = list.as_bytes();
    assert_eq!(bytes[4..8], 0xffa5_a5a5_u32.to_le_bytes());
    assert_eq!(bytes[44..48], 0x7fa5_a5a5_u32.to_le_bytes());
    assert_eq!(bytes[53..61], 0x7ff0_dead_beef_0001_u64.to_le_bytes());
    assert_eq!(bytes[61..69], 0xfff0_dead_beef_0001_u64.to_le_bytes());
    assert_eq!(bytes[69..77], 0x8000_0000_0000_0000_u64.to_le_bytes());
}
