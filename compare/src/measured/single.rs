//! The Rust's single envelope, in the same loops, as the one voice of what a
//! host holds.

use std::hint::black_box;

use crate::calls::stage_number;
use crate::measured::Measured;
use crate::measured::asked::{Kind, Opening, Query, Sound};
use crate::reference::{lead, tail};
use crate::rust::envelope::{Envelope, Trigger};

impl Measured for Envelope {
    fn levels(_: usize) -> usize {
        1
    }

    fn opened(Opening { sound, .. }: Opening) -> Self {
        Self::new(sound.settings(), sound.timing())
    }

    #[inline(never)]
    fn calls(&mut self, sound: Sound, kind: Kind, calls: u32) {
        for _ in 0..calls {
            call(self, sound, kind);
        }
    }

    #[inline(never)]
    fn blocks(&mut self, out: &mut [f32], blocks: u32) {
        for _ in 0..blocks {
            self.process(out);
        }
    }

    /// Each of the envelope as if it could have changed: else it would be read
    /// once for all.
    #[inline(never)]
    fn readings(&self, query: Query, times: u32) -> u64 {
        (0..times).fold(0, |sum: u64, _| {
            sum.wrapping_add(read(black_box(self), query))
        })
    }
}

/// All voices are the one, which has no other to join.
#[inline(always)]
fn call(envelope: &mut Envelope, sound: Sound, kind: Kind) {
    match kind {
        Kind::Trigger => envelope.trigger(Trigger::New),
        Kind::Release => {
            envelope.trigger(Trigger::New);
            envelope.release();
        }
        Kind::Settings | Kind::AllSettings => envelope.set_params(sound.settings()),
        Kind::OtherSettings | Kind::AllOtherSettings => {
            envelope.set_params(sound.other_settings());
            envelope.set_params(sound.settings());
        }
        Kind::Reset => envelope.reset(),
        Kind::Retrigger => envelope.trigger(Trigger::Retrigger),
        Kind::Legato => envelope.trigger(Trigger::Legato),
        Kind::Join => panic!("one voice has no other to join"),
        Kind::Timing => envelope.set_timing(sound.timing()),
        Kind::OtherTiming => {
            envelope.set_timing(sound.other_timing());
            envelope.set_timing(sound.timing());
        }
    }
}

/// Tail and lead are not the Rust's, but the reference's.
#[inline(always)]
fn read(envelope: &Envelope, query: Query) -> u64 {
    match query {
        Query::Params => envelope.params().decay.to_bits().into(),
        Query::Stage => stage_number(envelope.stage()).into(),
        Query::Level => envelope.level().to_bits().into(),
        Query::Idle => envelope.is_idle().into(),
        Query::Tail => tail(envelope),
        Query::Lead => lead(envelope),
        Query::Voices | Query::Stride => 1,
    }
}
