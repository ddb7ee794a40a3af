//! The library's player plays document 01's sample list, and refuses it with
//! what is wrong, byte for byte as 01 has it. The list and the answers are
//! written out here, apart from what the comparison makes of them.

use compare::library::{list_info, play, refused_at};

/// Voices, rate 1000, tempo 120, scale 1.
const OPEN: [u8; 28] = [
    1, 72, 0, 1, 0, 0, 0, 0, 0, 0x40, 0x8f, 0x40, 0, 0, 0, 0, 0, 0, 0x5e, 0x40, 0, 0, 0, 0, 0, 0,
    0xf0, 0x3f,
];

/// Milliseconds: delay 2, attack 4, hold 1, decay 2, sustain 0.5, release 2,
/// curves 0.5, start and end 0, both last bytes 0.
const SETTINGS: [u8; 47] = [
    0, 0, 0, 0, 0x40, 0, 0, 0x80, 0x40, 0, 0, 0x80, 0x3f, 0, 0, 0, 0x40, 0, 0, 0, 0x3f, 0, 0, 0,
    0x40, 0, 0, 0, 0x3f, 0, 0, 0, 0x3f, 0, 0, 0, 0x3f, 0, 0, 0, 0, 0, 0, 0, 0, 0, 0,
];

/// Trigger new on voice 0, and 10 frames.
const EVENTS: [u8; 12] = [5, 2, 0, 0, 0, 9, 4, 0, 10, 0, 0, 0];

/// The first lane, and each frame's other fifteen are 0.
const LEVELS: [u32; 10] = [
    0,
    0,
    0,
    0x3e80_0000,
    0x3f00_0000,
    0x3f40_0000,
    0x3f80_0000,
    0x3f80_0000,
    0x3f40_0000,
    0x3f00_0000,
];

fn sample() -> Vec<u8> {
    [&OPEN[..], &SETTINGS, &EVENTS].concat()
}

/// The sample with `byte` at `at`.
fn with(at: usize, byte: u8) -> Vec<u8> {
    let mut list = sample();
    list[at] = byte;
    list
}

#[test]
fn plays_the_sample() {
    let list = sample();
    let mut expected = Vec::new();
    for level in LEVELS {
        expected.extend(level.to_le_bytes());
        expected.extend([0; 60]);
    }
    expected.extend([7; 5]);
    let mut out = vec![7; 645];
    assert_eq!(play(&list, &mut out), 10);
    assert_eq!(out, expected);
    assert_eq!(refused_at(&list, 645), 87);
    assert_eq!(info(&list), (0, 1, 10));
}

/// The number, voices and frames, which are 7 before.
fn info(list: &[u8]) -> (u32, usize, u64) {
    let (mut voices, mut frames) = (7, 7);
    let refusal = list_info(list, &mut voices, &mut frames);
    (refusal, voices, frames)
}

#[test]
fn refuses_by_number_and_place() {
    let cases = [
        (with(3, 65), -1, 0),
        (with(78, 1), -2, 75),
        (with(36, 0x50), -3, 0),
        (with(11, 0x50), -4, 0),
        (sample()[..86].to_vec(), -6, 80),
        (sample()[..77].to_vec(), -6, 75),
        (with(75, 10), -7, 75),
        (with(0, 0), -7, 0),
        (with(76, 1), -8, 75),
        (sample()[75..].to_vec(), -9, 0),
        ([sample(), sample()].concat(), -9, 87),
        (Vec::new(), -9, 0),
        (with(79, 3), -10, 75),
        (with(74, 2), -10, 0),
        (with(83, 11), -11, 80),
        (with(86, 0x10), -11, 80),
    ];
    for (list, result, place) in cases {
        let mut out = vec![7; 640];
        assert_eq!(play(&list, &mut out), result, "{list:?}");
        assert_eq!(out, [7; 640], "{list:?}");
        assert_eq!(refused_at(&list, 640), place, "{list:?}");
        // Whether the output is long enough takes no part in this.
        let number = result.unsigned_abs() as u32;
        assert!(number == 11 || info(&list) == (number, 7, 7), "{list:?}");
    }
    assert_eq!(play(&sample(), &mut [7; 639]), -11);
}
