//! The settings and the timing of envelopes, with the names of the Rust library that Worfelli comes
//! from. Numbers outside a range are not refused here: the bank limits or refuses them.
//!
//! Lists and the library have a code for each unit, restart and kind of trigger, which is its number here.

/// What the times of an envelope count.
#[derive(Clone, Copy, Debug, PartialEq, Eq, Hash)]
pub enum TimeUnit {
    /// Thousandths of a second.
    Milliseconds = 0,
    /// Quarter notes at the bank's [tempo](Timing::tempo).
    Tempo = 1,
}

impl TimeUnit {
    const fn coded(code: u32) -> Option<Self> {
        match code {
            0 => Some(Self::Milliseconds),
            1 => Some(Self::Tempo),
            _ => None,
        }
    }
}

/// The level at which a sounding voice restarts.
#[derive(Clone, Copy, Debug, PartialEq, Eq, Hash)]
pub enum StealRestart {
    /// The one that it has.
    CurrentLevel = 0,
    /// The [start](EnvelopeParams::start) level.
    StartLevel = 1,
}

impl StealRestart {
    const fn coded(code: u32) -> Option<Self> {
        match code {
            0 => Some(Self::CurrentLevel),
            1 => Some(Self::StartLevel),
            _ => None,
        }
    }
}

/// How a note starts. An idle voice begins at its start level with each of them.
#[derive(Clone, Copy, Debug, PartialEq, Eq, Hash)]
pub enum Trigger {
    /// At the start level, though the voice may be sounding.
    New = 0,
    /// A sounding voice restarts at the level that [`StealRestart`] names.
    Retrigger = 1,
    /// A sounding voice goes on as it is. If [inverted](EnvelopeParams::legato_inverted), this is a
    /// retrigger.
    Legato = 2,
}

impl Trigger {
    pub(crate) const fn coded(code: u8) -> Option<Self> {
        match code {
            0 => Some(Self::New),
            1 => Some(Self::Retrigger),
            2 => Some(Self::Legato),
            _ => None,
        }
    }
}

/// The settings of a voice's envelope.
///
/// Times run from 0 to 1,048,576; over that they are refused, and below 0 or NaN they are 0. Levels and
/// curves are limited to 0 to 1, NaN being 0. A curve of 0.5 is straight; with more, most of
/// the way is gone early in the time, with less late.
#[derive(Clone, Copy, Debug, PartialEq)]
pub struct EnvelopeParams {
    /// What the five times count.
    pub unit: TimeUnit,
    /// Time at the level with which the note begins.
    pub delay: f32,
    /// Time of the rise to 1.
    pub attack: f32,
    /// Time at 1.
    pub hold: f32,
    /// Time of the fall to the sustain level.
    pub decay: f32,
    /// Level until the note's end.
    pub sustain: f32,
    /// Time from the level at the note's end to the end level.
    pub release: f32,
    /// Curve of the rise.
    pub attack_curve: f32,
    /// Curve of the fall to the sustain level.
    pub decay_curve: f32,
    /// Curve of the way to the end level.
    pub release_curve: f32,
    /// Level with which a new note begins.
    pub start: f32,
    /// Level at which the release ends, and of an idle voice.
    pub end: f32,
    /// Whether a legato trigger restarts a sounding voice.
    pub legato_inverted: bool,
    /// Where a sounding voice restarts.
    pub steal_restart: StealRestart,
}

impl EnvelopeParams {
    /// The usual settings of a volume: the level is at 1 after a millisecond and stays there, and after
    /// the note it is at 0 in 15.
    pub const AMP: Self = Self {
        // Times.
        attack: 1.0,
        decay: 1000.0,
        release: 15.0,
        delay: 0.0,
        hold: 0.0,
        unit: TimeUnit::Milliseconds,
        // Levels.
        start: 0.0,
        sustain: 1.0,
        end: 0.0,
        // Curves.
        attack_curve: 0.5,
        decay_curve: 0.666,
        release_curve: 0.666,
        // Restarts.
        steal_restart: StealRestart::CurrentLevel,
        legato_inverted: false,
    };

    /// The usual settings of what is modulated: [`AMP`](Self::AMP) with half the attack, restarting at
    /// the start level.
    pub const MODULATION: Self = {
        let mut params = Self::AMP;
        params.attack = 0.5;
        params.steal_restart = StealRestart::StartLevel;
        params
    };

    /// The numbers, in the order that lists and the library have.
    pub(crate) const fn numbers(&self) -> [f32; 11] {
        [
            self.delay,
            self.attack,
            self.hold,
            self.decay,
            self.sustain,
            self.release,
            self.attack_curve,
            self.decay_curve,
            self.release_curve,
            self.start,
            self.end,
        ]
    }

    /// The codes of unit, legato and restart.
    pub(crate) const fn codes(&self) -> [u32; 3] {
        [
            self.unit as u32,
            self.legato_inverted as u32,
            self.steal_restart as u32,
        ]
    }

    /// The settings of these [numbers](Self::numbers) and [codes](Self::codes), if each code has a meaning.
    pub(crate) fn of_parts(numbers: [f32; 11], [unit, legato, restart]: [u32; 3]) -> Option<Self> {
        Some(Self {
            unit: TimeUnit::coded(unit)?,
            delay: numbers[0],
            attack: numbers[1],
            hold: numbers[2],
            decay: numbers[3],
            sustain: numbers[4],
            release: numbers[5],
            attack_curve: numbers[6],
            decay_curve: numbers[7],
            release_curve: numbers[8],
            start: numbers[9],
            end: numbers[10],
            legato_inverted: match legato {
                0 => false,
                1 => true,
                _ => return None,
            },
            steal_restart: StealRestart::coded(restart)?,
        })
    }
}

impl Default for EnvelopeParams {
    fn default() -> Self {
        Self::AMP
    }
}

/// What turns a bank's times into frames.
#[derive(Clone, Copy, Debug, PartialEq)]
pub struct Timing {
    /// Frames a second, from 0 to 1,048,576; refused over that, and 0 if below 0 or NaN.
    pub sample_rate: f64,
    /// Beats a minute, for times in [beats](TimeUnit::Tempo); 1 if below 1 or NaN.
    pub tempo: f64,
    /// What each time is multiplied by, limited to 0.1 to 10. With NaN all times are 0.
    pub scale: f64,
}

impl Timing {
    /// So many frames a second, 120 beats a minute, and times as they are.
    #[must_use]
    pub const fn new(sample_rate: f64) -> Self {
        let (tempo, scale) = (120.0, 1.0);
        Self {
            sample_rate,
            tempo,
            scale,
        }
    }

    /// This timing at another tempo.
    #[must_use]
    pub const fn with_tempo(mut self, tempo: f64) -> Self {
        self.tempo = tempo;
        self
    }

    /// This timing at another scale.
    #[must_use]
    pub const fn with_scale(mut self, scale: f64) -> Self {
        self.scale = scale;
        self
    }
}
