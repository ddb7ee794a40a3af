//! The example `live`: the levels of a script of key events, and what it says of a wrong one.

#[path = "../examples/live.rs"]
#[allow(dead_code)]
mod live;

use worfelli::{EnvelopeParams, Event, List, Timing, Trigger, play};

const SCRIPT: &str = "\
# Two keys, one of which goes down again while it is released, and a chord.
0 down 3
  100 down\t15\r

100 up 3
163 down 3
163 up 15
300 up 3
300 up 3
400 down 9 15 0 3
1000 up 15 9
7000 end
# Nothing follows.
";

/// The same as a list.
fn list() -> List {
    let down = |voice| Event::Trigger {
        voice,
        trigger: Trigger::New,
    };
    List::from([
        Event::Open {
            voices: 16,
            timing: Timing::new(48_000.0),
            params: EnvelopeParams {
                attack: 10.0,
                decay: 200.0,
                sustain: 0.6,
                release: 120.0,
                ..EnvelopeParams::AMP
            },
        },
        down(3),
        Event::Frames(100),
        down(15),
        Event::Release(3),
        Event::Frames(63),
        down(3),
        Event::Release(15),
        Event::Frames(137),
        Event::Release(3),
        Event::Release(3),
        Event::Frames(100),
        down(9),
        down(15),
        down(0),
        down(3),
        Event::Frames(600),
        Event::Release(15),
        Event::Release(9),
        Event::Frames(6000),
    ])
}

/// What it writes and what it answers.
fn take(script: &str) -> (Vec<u8>, Result<(), String>) {
    let mut levels = Vec::new();
    let answer = live::take(script.as_bytes(), &mut levels);
    (levels, answer)
}

#[test]
fn levels_of_a_script() {
    let list = list();
    let mut expected = vec![0; 4 * list.levels().unwrap()];
    assert_eq!(play(list.as_bytes(), &mut expected), Ok(7000));
    let (levels, answer) = take(SCRIPT);
    assert_eq!(answer, Ok(()));
    assert!(levels == expected);
    // Without the last line's end, too.
    assert!(take(SCRIPT.trim_end()).0 == expected);
    assert_eq!(take("0 end"), (vec![], Ok(())));
    assert_eq!(take("1 end"), (vec![0; 64], Ok(())));
}

/// What is expected after down and up.
const KEYS: &str = "1 to 16 keys, each from 0 to 15";

#[test]
fn wrong_scripts() {
    let cases = [
        ("", 1, "FRAME end before the input ends"),
        ("# none\n2 down 3\n", 3, "FRAME end before the input ends"),
        ("down 3", 1, "FRAME, a number, then down, up or end"),
        ("+2 down 3", 1, "FRAME, a number, then down, up or end"),
        ("-1 end", 1, "FRAME, a number, then down, up or end"),
        (
            "18446744073709551616 end",
            1,
            "FRAME, a number, then down, up or end",
        ),
        ("2 down 3\n\n1 up 3", 3, "a frame from 2 on"),
        ("2", 1, "down, up or end after the frame"),
        ("2 Down 3", 1, "down, up or end after the frame"),
        ("2 down", 1, KEYS),
        ("2 down 16", 1, KEYS),
        ("2 up x", 1, KEYS),
        ("2 up 3 4 -5", 1, KEYS),
        ("2 up 1 1 1 1 1 1 1 1 1 1 1 1 1 1 1 1 1", 1, KEYS),
        ("2 end 3", 1, "nothing after end"),
        ("2 end\n\n1 wrong", 3, "nothing after FRAME end"),
    ];
    for (script, line, expected) in cases {
        let (_, answer) = take(script);
        assert_eq!(
            answer,
            Err(format!("line {line}: expected {expected}")),
            "{script:?}"
        );
    }
    // The levels before what is wrong have been written.
    assert_eq!(take("0 down 3\n2 down 3\n3 wrong").0.len(), 2 * 64);
}

#[test]
fn a_key_twice_in_a_line() {
    let (_, answer) = take("2 down 4 3 4\n9 end");
    let refused = "refused 12: a chord that names a voice twice or has over 64 entries";
    assert_eq!(answer, Err(refused.into()));
    assert_eq!(take("2 up 4 3 4\n9 end").1, Ok(()));
}
