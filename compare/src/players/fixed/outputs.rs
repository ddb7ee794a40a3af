//! Lengths of the output, and counts that don't fit into it.

use super::{Cases, FRAME, OPENED, open};
use crate::players::records::Event;

/// The number and the place of a refused frames record behind a note.
const TOO_LONG: (i64, usize) = (-11, OPENED + 5);

pub(super) fn cases(to: &mut Cases) {
    lengths(to);
    sums(to);
    wraps(to);
}

fn lengths(to: &mut Cases) {
    let list = || open(1).note(0).frames(5);
    for more in [0, 1, 2, 3, 4, 64, 300] {
        let name = format!("5 frames, and {more} bytes more");
        to.plays(&name, list(), 5 * FRAME + more, 5);
    }
    for less in [1, 2, 3, 4, 64, 5 * FRAME] {
        let name = format!("5 frames, and {less} bytes less");
        to.add(&name, list(), 5 * FRAME - less, TOO_LONG);
    }
    let one = || open(16).note(15).frames(1);
    to.add("a frame into 63 bytes", one(), 63, TOO_LONG);
    to.add("a frame into 61 bytes", one(), 61, TOO_LONG);
    to.plays("a frame into 64 bytes", one(), 64, 1);
    to.plays("a frame into 67 bytes", one(), 67, 1);
    to.add("a frame into 0 bytes", one(), 0, TOO_LONG);
    to.plays("no frames into 63 bytes", open(16), 63, 0);
    let wide = || open(17).note(16).frames(1);
    to.add("a frame of 17 voices into 127", wide(), 127, TOO_LONG);
    to.plays("a frame of 17 voices into 128", wide(), 128, 1);
    let most = || open(64).note(63).frames(1);
    to.add("a frame of 64 voices into 255", most(), 255, TOO_LONG);
    to.plays("a frame of 64 voices into 257", most(), 257, 1);
}

/// Counts that fit one by one and not together.
fn sums(to: &mut Cases) {
    let list = || open(2).note(0).frames(2).frames(2);
    to.plays("two records that fit", list(), 4 * FRAME, 4);
    let second = (-11, OPENED + 5 + 7);
    to.add("the second doesn't fit", list(), 4 * FRAME - 1, second);
    let behind = open(2).frames(2).frames(0).frames(1);
    to.add(
        "the third doesn't fit",
        behind,
        2 * FRAME,
        (-11, OPENED + 14),
    );
    let late = open(2).frames(2).then(Event::Release(2));
    to.add("room runs out before 2", late.clone(), FRAME, (-11, OPENED));
    to.add("2 before the end", late, 2 * FRAME, (-2, OPENED + 7));
}

/// Counts whose sum or levels have 32 bits that would fit.
fn wraps(to: &mut Cases) {
    for count in [1 << 28, 1 << 26, 1 << 31, 0x8000_0001, u32::MAX] {
        let list = open(1).note(0).frames(count);
        to.add(&format!("{count} frames"), list, 4 * FRAME, TOO_LONG);
    }
    for (voices, count) in [(17, 1 << 27), (33, 0x0555_5556), (64, 1 << 26)] {
        let list = open(voices).note(0).frames(count);
        let name = format!("{count} frames of {voices} voices");
        to.add(&name, list, 8 * FRAME, TOO_LONG);
    }
    for before in [1, 3] {
        let list = open(1).note(0).frames(before);
        let list = list.frames(u32::MAX - before + 1).frames(1);
        let name = format!("{before} frames and 2^32 less {before}");
        to.add(&name, list, 4 * FRAME, (-11, OPENED + 5 + 7));
    }
}
