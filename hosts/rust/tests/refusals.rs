//! Every refusal that a list can meet, with its place, and the output left alone.

use std::error::Error;

use worfelli::{Refusal, Refused, play, play_levels, refused_at};

const SAMPLE: &[u8] = include_bytes!("../../../examples/sample.list");

/// The output of the program `play`, for which docs/FORMAT.md gives the refusals.
const LEVELS: usize = 16_384;

/// The sample with other bytes from `at` on.
fn with(at: usize, bytes: &[u8]) -> Vec<u8> {
    let mut list = SAMPLE.to_vec();
    list[at..at + bytes.len()].copy_from_slice(bytes);
    list
}

/// What the functions say of a list, all of which have to agree and to leave the output alone.
fn refused(list: &[u8]) -> Refused {
    let mut bytes = vec![7; 4 * LEVELS];
    let mut levels = vec![7.0_f32; LEVELS];
    let refused = play(list, &mut bytes).unwrap_err();
    assert_eq!(play_levels(list, &mut levels), Err(refused));
    assert_eq!(refused_at(list, 4 * LEVELS), Some(refused.at));
    assert!(
        bytes.iter().all(|&byte| byte == 7),
        "the bytes of a refused list"
    );
    assert!(
        levels
            .iter()
            .all(|level| level.to_bits() == 7_f32.to_bits()),
        "the levels of a refused list"
    );
    refused
}

#[test]
fn by_number_and_place() {
    use Refusal::{
        CutShort, MisplacedOpen, NoSuchVoice, OutputTooShort, RateOver, TimeOver, TooManyVoices,
        UnknownTag, UnnamedCode, WrongLength,
    };
    // The last section of docs/FORMAT.md in its order, then the other byte that each can be met by.
    let cases = [
        (with(78, &[1]), NoSuchVoice, 2, 75),
        (vec![], MisplacedOpen, 9, 0),
        (SAMPLE[..86].to_vec(), CutShort, 6, 80),
        ([SAMPLE, &[9]].concat(), CutShort, 6, 87),
        (with(75, &[10]), UnknownTag, 7, 75),
        (with(75, &[6]), WrongLength, 8, 75),
        (SAMPLE[75..].to_vec(), MisplacedOpen, 9, 0),
        ([&SAMPLE[..75], SAMPLE].concat(), MisplacedOpen, 9, 75),
        (with(79, &[3]), UnnamedCode, 10, 75),
        (with(3, &[65]), TooManyVoices, 1, 0),
        (with(4, &2_000_000_f64.to_le_bytes()), RateOver, 4, 0),
        (with(29, &2_000_000_f32.to_le_bytes()), TimeOver, 3, 0),
        (with(83, &[1, 4, 0, 0]), OutputTooShort, 11, 80),
        (SAMPLE[..77].to_vec(), CutShort, 6, 75),
        (with(0, &[0]), UnknownTag, 7, 0),
        (with(76, &[1]), WrongLength, 8, 75),
        (with(28, &[2]), UnnamedCode, 10, 0),
        (with(73, &[2]), UnnamedCode, 10, 0),
        (with(74, &[2]), UnnamedCode, 10, 0),
        (with(3, &[0]), NoSuchVoice, 2, 75),
        (with(83, &[0xff; 4]), OutputTooShort, 11, 80),
    ];
    for (list, refusal, number, at) in cases {
        assert_eq!(refused(&list), Refused { refusal, at }, "{list:?}");
        assert_eq!(refusal.number(), number);
    }
}

#[test]
fn limits_themselves_are_accepted() {
    let limit = 1_048_576_f64;
    let accepted = [
        with(4, &limit.to_le_bytes()),
        with(29, &1_048_576_f32.to_le_bytes()),
        with(3, &[64]),
        with(83, &[0, 1, 0, 0]),
    ];
    for list in accepted {
        assert!(play_levels(&list, &mut vec![0.0; LEVELS]).is_ok());
        assert_eq!(refused_at(&list, 4 * LEVELS), None);
    }
    let over = with(4, &limit.next_up().to_le_bytes());
    assert_eq!(refused(&over).refusal, Refusal::RateOver);
    let over = with(29, &1_048_576_f32.next_up().to_le_bytes());
    assert_eq!(refused(&over).refusal, Refusal::TimeOver);
}

#[test]
fn say_what_they_are() {
    let error: Box<dyn Error> = refused(&with(78, &[1])).into();
    assert_eq!(error.to_string(), "refused 2 at byte 75: no such voice");
    assert_eq!(
        refused(&[]).to_string(),
        "refused 9 at byte 0: a list is opened once, by its first record"
    );
}
