//! Random events and numbers, the same ones in every run.

use worfelli::{EnvelopeParams, Event, StealRestart, TimeUnit, Timing, Trigger};

/// A xorshift generator.
pub(crate) struct Random(u64);

impl Random {
    /// The seed must not be 0.
    pub(crate) const fn new(seed: u64) -> Self {
        Self(seed)
    }

    /// Of the eight bytes the two highest, which look the most random.
    fn two_bytes(&mut self) -> [u8; 2] {
        self.0 ^= self.0 << 13;
        self.0 ^= self.0 >> 7;
        self.0 ^= self.0 << 17;
        let [high, low, ..] = self.0.to_be_bytes();
        [high, low]
    }

    pub(crate) fn byte(&mut self) -> u8 {
        self.two_bytes()[0]
    }

    pub(crate) fn below(&mut self, end: u16) -> u16 {
        u16::from_be_bytes(self.two_bytes()) % end
    }

    fn pick<T: Copy, const N: usize>(&mut self, from: [T; N]) -> T {
        from[usize::from(self.byte()) % N]
    }

    /// 0 to 1, and now and then a number that is outside or none.
    fn level(&mut self) -> f32 {
        match self.below(12) {
            0 => f32::NAN,
            1 => -1.0,
            2 => f32::INFINITY,
            3 => 1e-39,
            _ => f32::from(self.below(1001)) / 1000.0,
        }
    }

    fn time(&mut self) -> f32 {
        match self.below(8) {
            0 => 0.0,
            1 => f32::NAN,
            2 => -2.0,
            _ => f32::from(self.below(400)) / 10.0,
        }
    }

    pub(crate) fn params(&mut self) -> EnvelopeParams {
        let milliseconds = TimeUnit::Milliseconds;
        EnvelopeParams {
            unit: self.pick([milliseconds, milliseconds, TimeUnit::Tempo]),
            delay: self.time(),
            attack: self.time(),
            hold: self.time(),
            decay: self.time(),
            sustain: self.level(),
            release: self.time(),
            attack_curve: self.level(),
            decay_curve: self.level(),
            release_curve: self.level(),
            start: self.level(),
            end: self.level(),
            legato_inverted: self.pick([false, true]),
            steal_restart: self.pick([StealRestart::CurrentLevel, StealRestart::StartLevel]),
        }
    }

    pub(crate) fn timing(&mut self) -> Timing {
        Timing {
            sample_rate: f64::from(self.below(3000)),
            tempo: f64::from(self.below(60_000)),
            scale: f64::from(self.below(30)) / 10.0,
        }
    }

    /// Anything but an open that a bank of so many voices, at least one, accepts.
    pub(crate) fn event(&mut self, voices: u8) -> Event {
        let voice = self.byte() % voices;
        match self.below(14) {
            0 => Event::Settings {
                voice,
                params: self.params(),
            },
            1 => Event::SettingsForAll(self.params()),
            2 => Event::Timing(self.timing()),
            3..=5 => Event::Trigger {
                voice,
                trigger: self.pick([Trigger::New, Trigger::Retrigger, Trigger::Legato]),
            },
            6 | 7 => Event::Release(voice),
            8 => Event::Reset(voice),
            9 => Event::Join {
                voice,
                from: self.byte() % voices,
            },
            _ => Event::Frames(self.below(70).into()),
        }
    }
}
