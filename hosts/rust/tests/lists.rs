//! Lists from bytes and back, event by event, and what is known of them before they are played.

mod random;

use random::Random;
use worfelli::{EnvelopeParams, Event, List, Refusal, Refused, Timing, Trigger, play_levels};

const SAMPLE: &[u8] = include_bytes!("../../../examples/sample.list");

const OPEN: Event = Event::Open {
    voices: 17,
    timing: Timing::new(1000.0),
    params: EnvelopeParams::AMP,
};

fn with(at: usize, bytes: &[u8]) -> Vec<u8> {
    let mut list = SAMPLE.to_vec();
    list[at..at + bytes.len()].copy_from_slice(bytes);
    list
}

#[test]
fn events_come_back() {
    let events = [
        OPEN,
        Event::Settings {
            voice: 9,
            params: EnvelopeParams::MODULATION,
        },
        Event::SettingsForAll(EnvelopeParams::AMP),
        Event::Timing(Timing::new(44_100.0).with_tempo(90.0).with_scale(2.0)),
        Event::Trigger {
            voice: 63,
            trigger: Trigger::New,
        },
        Event::Trigger {
            voice: 64,
            trigger: Trigger::Retrigger,
        },
        Event::Trigger {
            voice: 255,
            trigger: Trigger::Legato,
        },
        Event::Release(1),
        Event::Reset(2),
        Event::Join { voice: 3, from: 4 },
        Event::Frames(0x1234_5678),
    ];
    let list = List::from(events);
    assert!(list.iter().eq(events));
    assert!((&list).into_iter().eq(events));
    assert_eq!(List::from_bytes(list.as_bytes()), Ok(list.clone()));
    assert_eq!(AsRef::<[u8]>::as_ref(&list), list.as_bytes());

    let mut sum = 0;
    for event in &list {
        if let Event::Frames(count) = event {
            sum += count;
        }
    }
    assert_eq!(sum, 0x1234_5678);

    // An iterator that has ended stays so, and a clone of one goes on alone.
    let mut rest = list.iter();
    assert_eq!(rest.by_ref().last(), Some(Event::Frames(0x1234_5678)));
    assert_eq!((rest.next(), rest.next()), (None, None));
    assert_eq!(List::new().iter().next(), None);
    assert_eq!(List::from_bytes([]), Ok(List::new()));
}

#[test]
fn random_lists_come_back() {
    let mut random = Random::new(0x115f);
    for _ in 0..100 {
        let list: List = (0..50).map(|_| random.event(64)).collect();
        let read = List::from_bytes(list.as_bytes()).unwrap();
        assert_eq!(read, list);
        assert_eq!(read.iter().collect::<List>(), list);
    }
}

#[test]
fn bits_come_back() {
    // Numbers of a timing and of settings, most of which are no numbers: quiet and signalling NaNs with
    // payloads, infinities, subnormals, -0.
    let doubles = [
        0x7ff0_dead_beef_0001_u64,
        0xfff8_0000_0000_002a,
        0x8000_0000_0000_0000,
    ];
    let singles = [
        0xffa5_a5a5_u32,
        0x7f80_0001,
        0x7fc0_0000,
        0xffff_ffff,
        0x7f80_0000,
        0xff80_0000,
        0x8000_0000,
        0x0000_0001,
        0x807f_ffff,
        0x7fa0_0000,
        0x4974_2400,
    ];
    let mut bytes = vec![1, 72, 0, 255];
    bytes.extend(doubles.map(u64::to_le_bytes).as_flattened());
    bytes.push(1);
    bytes.extend(singles.map(u32::to_le_bytes).as_flattened());
    bytes.extend([1, 1]);

    let list = List::from_bytes(bytes.clone()).unwrap();
    let Some(Event::Open { timing, params, .. }) = list.iter().next() else {
        panic!("the list's first event is its open");
    };
    let Timing {
        sample_rate,
        tempo,
        scale,
    } = timing;
    assert_eq!([sample_rate, tempo, scale].map(f64::to_bits), doubles);
    assert_eq!(
        [params.delay, params.attack, params.end].map(f32::to_bits),
        [singles[0], singles[1], singles[10]]
    );
    assert_eq!(list.iter().collect::<List>().as_bytes(), bytes);
}

#[test]
fn bytes_that_are_no_records() {
    use Refusal::{CutShort, UnknownTag, UnnamedCode, WrongLength};
    let cases = [
        (SAMPLE[..86].to_vec(), CutShort, 80),
        (SAMPLE[..77].to_vec(), CutShort, 75),
        ([SAMPLE, &[9]].concat(), CutShort, 87),
        (vec![0], CutShort, 0),
        (with(75, &[10]), UnknownTag, 75),
        (with(75, &[0]), UnknownTag, 75),
        (with(75, &[6]), WrongLength, 75),
        (with(76, &[1]), WrongLength, 75),
        (with(0, &[9]), WrongLength, 0),
        (with(79, &[3]), UnnamedCode, 75),
        (with(28, &[2]), UnnamedCode, 0),
        (with(73, &[2]), UnnamedCode, 0),
        (with(74, &[255]), UnnamedCode, 0),
        // More than one at once: the order is 6, 7, 8, 10, and the first record is the one.
        (with(75, &[10, 2, 1]), CutShort, 75),
        (with(75, &[10, 3, 0]), UnknownTag, 75),
        (with(76, &[3, 0, 0, 3]), WrongLength, 75),
        ([&with(74, &[2])[..], &[9]].concat(), UnnamedCode, 0),
    ];
    for (bytes, refusal, at) in cases {
        let refused = Refused { refusal, at };
        assert_eq!(
            List::from_bytes(bytes.as_slice()),
            Err(refused),
            "{bytes:?}"
        );
        // The player says the same.
        assert_eq!(play_levels(&bytes, &mut [0.0; 160]), Err(refused));
    }
}

/// Damaged bytes are refused as the player refuses them, or are lists whose events make the same bytes.
#[test]
fn damaged_bytes() {
    let mut random = Random::new(0xbad);
    let mut whole = List::from([OPEN]);
    whole.extend((0..12).map(|_| random.event(17)));
    let mut refused = 0;
    for _ in 0..2000 {
        let mut bytes = whole.as_bytes().to_vec();
        for _ in 0..=random.below(2) {
            let at = usize::from(random.below(u16::MAX)) % bytes.len();
            bytes[at] = random.byte();
        }
        let missing = random.below(30).saturating_sub(25);
        bytes.truncate(bytes.len() - usize::from(missing));
        match List::from_bytes(bytes.as_slice()) {
            Ok(list) => assert_eq!(list.iter().collect::<List>().as_bytes(), bytes),
            Err(Refused { refusal, at }) => {
                refused += 1;
                assert!(matches!(refusal.number(), 6 | 7 | 8 | 10));
                // What stands before is a list, and what stands from there on is refused at once.
                assert!(List::from_bytes(&bytes[..at]).is_ok());
                assert_eq!(
                    List::from_bytes(&bytes[at..]),
                    Err(Refused { refusal, at: 0 })
                );
            }
        }
    }
    assert!((200..1800).contains(&refused), "{refused} of 2000 refused");
}

#[test]
fn what_only_the_player_refuses() {
    // Two opens, none, a voice that is not there, times and rates that are over.
    let cases = [
        ([SAMPLE, SAMPLE].concat(), Refusal::MisplacedOpen, 87),
        (SAMPLE[75..].to_vec(), Refusal::MisplacedOpen, 0),
        (vec![], Refusal::MisplacedOpen, 0),
        (with(3, &[65]), Refusal::TooManyVoices, 0),
        (with(78, &[1]), Refusal::NoSuchVoice, 75),
        (with(29, &f32::INFINITY.to_le_bytes()), Refusal::TimeOver, 0),
        (with(4, &f64::INFINITY.to_le_bytes()), Refusal::RateOver, 0),
    ];
    for (bytes, refusal, at) in cases {
        let list = List::from_bytes(bytes).unwrap();
        let refused = Refused { refusal, at };
        assert_eq!(list.frames(), Err(refused));
        assert_eq!(list.voices(), Err(refused));
        assert_eq!(list.levels(), Err(refused));
        assert_eq!(play_levels(list.as_bytes(), &mut [0.0; 160]), Err(refused));
    }
}

#[test]
fn how_much_a_list_is() {
    let list = List::from_bytes(SAMPLE).unwrap();
    assert_eq!(list.voices(), Ok(1));
    assert_eq!(list.frames(), Ok(10));
    assert_eq!(list.levels(), Ok(160));

    let mut list = List::from([OPEN]);
    assert_eq!((list.voices(), list.frames()), (Ok(17), Ok(0)));
    list.extend([Event::Frames(3), Event::Frames(0), Event::Frames(4)]);
    assert_eq!((list.frames(), list.levels()), (Ok(7), Ok(224)));
    let mut levels = vec![9.0; 224];
    assert_eq!(play_levels(list.as_bytes(), &mut levels), Ok(7));
    assert!(play_levels(list.as_bytes(), &mut levels[1..]).is_err());

    // More frames than 32 bits count.
    list.extend([Event::Frames(u32::MAX); 3]);
    assert_eq!(list.frames(), Ok(7 + 3 * u64::from(u32::MAX)));
    assert_eq!(list.levels(), Ok(32 * (7 + 3 * 0xffff_ffff)));
}
