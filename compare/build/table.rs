//! What is changed in the Rust's files before they are compiled, as tables.

/// The folder of the files below, within the folder of the sources.
pub const FOLDER: &str = "crates/dsp/src/envelope";

/// The files that are derived. `mod.rs` declares the other two.
pub const FILES: [&str; 3] = ["curve.rs", "lane.rs", "mod.rs"];

/// A text of the Rust's that gives way to one of ours.
pub struct Substitution {
    pub file: &'static str,
    pub text: &'static str,
    pub replacement: &'static str,
    /// How often the text has to be there. Any other count means that the
    /// sources are not those that this table was written for.
    pub times: usize,
}

const fn row(
    file: &'static str,
    text: &'static str,
    replacement: &'static str,
    times: usize,
) -> Substitution {
    Substitution {
        file,
        text,
        replacement,
        times,
    }
}

pub const SUBSTITUTIONS: [Substitution; 7] = [
    // The last bits of these four vary by machine: `stand_ins.rs` has ours.
    row("curve.rs", ".exp_m1()", ".stand_in_exp_m1()", 3),
    row("curve.rs", ".exp()", ".stand_in_exp()", 1),
    row("curve.rs", ".ln_1p()", ".stand_in_ln_1p()", 1),
    row("curve.rs", ".powi(len as i32)", ".stand_in_powi(len)", 1),
    // Not carried over, and not among the files.
    row("mod.rs", "pub mod law;", "", 1),
    row("mod.rs", "#[cfg(test)]\nmod tests;", "", 1),
    // A still group is drawn by the formula like any other, unless the
    // measurements ask for the Rust's shortcut, which would answer a base of
    // negative zero itself.
    row(
        "mod.rs",
        "if scale[lanes.clone()].iter().all(|&s| s == 0.0)",
        "if crate::simd::still_shortcut() && scale[lanes.clone()].iter().all(|&s| s == 0.0)",
        1,
    ),
];

/// Lines of ours at the end of a file, which reach what is private in it.
pub const ADDITIONS: [(&str, &str); 5] = [
    ("curve.rs", "use crate::stand_ins::StandIn;\n"),
    ("lane.rs", LANE),
    (
        "mod.rs",
        "pub fn unit_of(value: f32) -> f32 {\n    unit(value)\n}\n",
    ),
    ("mod.rs", ENVELOPE),
    ("mod.rs", BANK),
];

/// What is left of a stage, and where the Rust would join an attack that
/// begins when the present stage ends.
const LANE: &str = "\
impl Lane {
    pub(super) fn rest(&self, seg: &Segment) -> u64 {
        if !seg.is_timed() {
            return 0;
        }
        self.curve_total - self.pos - u64::from(self.seg_len - seg.left)
    }

    pub(super) fn place(&self, timing: &Timing) -> u64 {
        let spec = self.spec(Stage::Attack, timing, self.to);
        self.join_attack(self.to, spec).1
    }
}
";

/// What can't be seen of an envelope from outside.
const ENVELOPE: &str = "\
/// What is private in an envelope.
#[derive(Clone, Copy, Debug)]
pub struct Inside {
    /// Frames left of the present segment, `u32::MAX` if it has no end.
    pub left: u32,
    /// Frames left of the present stage, 0 if it has no end.
    pub rest: u64,
    /// The place at which an attack would begin after the present stage.
    pub place: u64,
    /// The present segment's scale and base.
    pub scale: f32,
    pub base: f32,
}

impl Envelope {
    pub fn timing(&self) -> &Timing {
        &self.timing
    }

    pub fn inside(&self) -> Inside {
        Inside {
            left: self.seg.left,
            rest: self.lane.rest(&self.seg),
            place: self.lane.place(&self.timing),
            scale: self.seg.scale,
            base: self.seg.base,
        }
    }
}
";

/// One voice of a bank, as the single envelope that it is, and the frames left
/// of its present segment.
const BANK: &str = "\
impl EnvelopeBank {
    pub fn left(&self, voice: usize) -> u32 {
        self.left[voice]
    }

    pub fn voice(&self, voice: usize) -> Envelope {
        Envelope {
            lane: self.lanes[voice].clone(),
            seg: self.load(voice),
            timing: self.timing,
        }
    }
}
";

/// Functions whose answers the machine's mathematical library or its fused
/// multiply-add would decide. No call of them may be left in a derived file.
pub const MACHINE_DEPENDENT: [&str; 14] = [
    "exp_m1", "exp", "exp2", "ln_1p", "ln", "log2", "log10", "log", "powi", "powf", "sin", "cos",
    "tanh", "mul_add",
];

/// The calls that do stay, with their number: those of `nearest_division`,
/// which the comparison never calls.
pub const LEFT: [(&str, &str, usize); 2] = [("mod.rs", "powi", 1), ("mod.rs", "ln", 2)];
