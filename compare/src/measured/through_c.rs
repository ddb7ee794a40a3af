//! A bank over C, in the loops of live/loops.c.

use crate::calls::{Settings, kind};
use crate::live::functions::{Clock, LiveBank};
use crate::measured::asked::{Chord, Kind, Opening, Query, Sound};
use crate::measured::{Measured, turn};

/// What the loops in C make calls with.
#[repr(C)]
struct CSound {
    params: Settings,
    other_params: Settings,
    timing: Clock,
    other_timing: Clock,
}

impl From<Sound> for CSound {
    fn from(sound: Sound) -> Self {
        Self {
            params: Settings::from(&sound.settings()),
            other_params: Settings::from(&sound.other_settings()),
            timing: Clock::from(&sound.timing()),
            other_timing: Clock::from(&sound.other_timing()),
        }
    }
}

// SAFETY: the safe ones read and write what they are lent alone, and answer
// for any numbers.
unsafe extern "C" {
    safe fn compare_calls(bank: &mut LiveBank, sound: &CSound, kind: u32, calls: u32) -> u32;
    safe fn compare_opens(bank: &mut LiveBank, voices: usize, sound: &CSound, times: u32) -> u32;
    fn compare_chords(
        bank: &mut LiveBank,
        turn: *const usize,
        size: usize,
        trigger: u32,
        chords: u32,
    ) -> u32;
    fn compare_blocks(bank: &mut LiveBank, out: *mut f32, levels: usize, blocks: u32) -> u32;
    safe fn compare_readings(bank: &LiveBank, kind: u32, times: u32) -> u64;
}

impl Measured for LiveBank {
    fn opened(opening: Opening) -> Self {
        let mut bank = Self::zeros();
        bank.opens(opening, 1);
        bank
    }

    fn opens(&mut self, opening: Opening, times: u32) {
        let refusals = compare_opens(self, opening.voices, &CSound::from(opening.sound), times);
        assert_eq!(refusals, 0, "openings");
    }

    fn calls(&mut self, sound: Sound, kind: Kind, calls: u32) {
        let refusals = compare_calls(self, &CSound::from(sound), kind as u32, calls);
        assert_eq!(refusals, 0, "calls of {kind:?}");
    }

    fn chords(&mut self, _: Sound, Chord { trigger, voices }: Chord, chords: u32) {
        let (turn, kind) = (turn(), kind(trigger).into());
        // SAFETY: as for the others; the list has every voice that a bank has room
        // for, and over 64 are refused unread.
        let refusals = unsafe { compare_chords(self, turn.as_ptr(), voices, kind, chords) };
        assert_eq!(refusals, 0, "chords of {voices} voices");
    }

    fn blocks(&mut self, out: &mut [f32], blocks: u32) {
        // SAFETY: as for the others; pointer and length are those of a slice.
        let refusals = unsafe { compare_blocks(self, out.as_mut_ptr(), out.len(), blocks) };
        assert_eq!(refusals, 0, "blocks of {} levels", out.len());
    }

    fn readings(&self, query: Query, times: u32) -> u64 {
        compare_readings(self, query as u32, times)
    }
}
