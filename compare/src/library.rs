//! What the static libraries made from the Rattle export, as safe functions,
//! and a list of the exports by group, so that a comparison can tell which of
//! them it left out. A linker sees names and no types, so `tests/exports.rs`
//! holds the lists against the Rattle's own text. Live banks are called through
//! the header instead, in `live`.

/// An exported function as it is declared here.
#[derive(Clone, Copy, Debug)]
pub struct Export {
    pub name: &'static str,
    pub symbol: &'static str,
    /// The types of its arguments and of its result.
    pub arguments: &'static [&'static str],
    pub result: &'static str,
}

/// Declares a group of exports and the list of them.
macro_rules! exports {
    ($(#[$about:meta])* $list:ident: $(
        $(#[$meta:meta])* $symbol:literal $name:ident($($arg:ident: $type:ty),*) -> $result:ty;
    )*) => {
        // SAFETY: each is proved total on every value of its types, numbers
        // pass as themselves, and none of them keeps or writes any memory.
        unsafe extern "C" {
            $($(#[$meta])* #[link_name = $symbol] pub safe fn $name($($arg: $type),*) -> $result;)*
        }

        $(#[$about])*
        pub const $list: &[Export] = &[$(Export {
            name: stringify!($name),
            symbol: $symbol,
            arguments: &[$(stringify!($type)),*],
            result: stringify!($result),
        }),*];
    };
}

exports! {
    /// The number helpers.
    NUMBERS:
    /// Limited to 0..1, NaN as 0, never negative zero.
    "worfelli_unit" unit(value: f32) -> f32;
    /// The larger one; of two zeros the first, and with one NaN the other.
    "worfelli_max" max(x: f64, y: f64) -> f64;
    /// `min` if x is below it, else `max` if x is above that, else x.
    "worfelli_clamp" clamp(x: f64, min: f64, max: f64) -> f64;
    /// The nearest whole, halves away from zero, held within `u64`; NaN as 0.
    "worfelli_round_to_u64" round_to_u64(x: f64) -> u64;
    /// The nearest binary32, ties to even.
    "worfelli_narrow" narrow(x: f64) -> f32;
    /// The same number in binary64.
    "worfelli_widen" widen(x: f32) -> f64;
    /// The nearest binary64, ties to even.
    "worfelli_of_u64" of_u64(n: u64) -> f64;
    /// The bits, those of a NaN being 7fc00000.
    "worfelli_f32_to_bits" f32_to_bits(x: f32) -> u32;
    "worfelli_f32_from_bits" f32_from_bits(bits: u32) -> f32;
    /// The bits, those of a NaN being 7ff8000000000000.
    "worfelli_f64_to_bits" f64_to_bits(x: f64) -> u64;
    "worfelli_f64_from_bits" f64_from_bits(bits: u64) -> f64;
    "worfelli_exp_m1" exp_m1(z: f64) -> f64;
    "worfelli_exp" exp(z: f64) -> f64;
    "worfelli_ln_1p" ln_1p(a: f64) -> f64;
    "worfelli_powi" powi(r: f64, len: u32) -> f64;
    /// `Timing::samples`, with the unit as whether the value is in beats.
    "worfelli_samples" samples(
        beats: bool, value: f32, sample_rate: f64, tempo: f64, scale: f64
    ) -> u64;
}

mod lent {
    unsafe extern "C" {
        /// A slice passes as where it begins and how many elements it has.
        pub fn worfelli_note(
            sample_rate: f64,
            attack: f32,
            decay: f32,
            sustain: f32,
            out: *mut f32,
            len: usize,
        ) -> u32;

        pub fn worfelli_play(list: *const u8, list_len: usize, out: *mut u8, out_len: usize)
        -> i64;

        pub fn worfelli_refused_at(list: *const u8, list_len: usize, out_len: usize) -> u64;

        pub fn worfelli_list_info(
            list: *const u8,
            list_len: usize,
            voices: &mut usize,
            frames: &mut u64,
        ) -> u32;
    }
}

/// The exported note.
pub const NOTE: Export = Export {
    name: "note",
    symbol: "worfelli_note",
    arguments: &["f64", "f32", "f32", "f32", "&mut [f32]"],
    result: "u32",
};

/// The first levels of a new note on a fresh envelope of the Rust's AMP with
/// this attack, decay and sustain. Answers the refusal's number, or 0.
pub fn note(sample_rate: f64, attack: f32, decay: f32, sustain: f32, out: &mut [f32]) -> u32 {
    // SAFETY: it is proved total on every value of its types, writes only the
    // slice that it is lent, and keeps nothing.
    unsafe {
        lent::worfelli_note(
            sample_rate,
            attack,
            decay,
            sustain,
            out.as_mut_ptr(),
            out.len(),
        )
    }
}

/// The exports about event lists, of the library for hosts.
pub const LISTS: &[Export] = &[
    Export {
        name: "play",
        symbol: "worfelli_play",
        arguments: &["&[u8]", "&mut [u8]"],
        result: "i64",
    },
    Export {
        name: "refused_at",
        symbol: "worfelli_refused_at",
        arguments: &["&[u8]", "usize"],
        result: "u64",
    },
    Export {
        name: "list_info",
        symbol: "worfelli_list_info",
        arguments: &["&[u8]", "&mut usize", "&mut u64"],
        result: "u32",
    },
];

/// Plays an event list into `out`, four bytes a level. Answers the frames that
/// were written, or minus the refusal's number.
pub fn play(list: &[u8], out: &mut [u8]) -> i64 {
    // SAFETY: as for `note`; of the list it only reads.
    unsafe { lent::worfelli_play(list.as_ptr(), list.len(), out.as_mut_ptr(), out.len()) }
}

/// The first byte of the record that is refused where the output has so many
/// bytes, or the list's length.
#[must_use]
pub fn refused_at(list: &[u8], out_len: usize) -> u64 {
    // SAFETY: it reads the list and nothing else.
    unsafe { lent::worfelli_refused_at(list.as_ptr(), list.len(), out_len) }
}

/// The number that refuses a list however long the output is, or 0 and the
/// list's voices and frames.
pub fn list_info(list: &[u8], voices: &mut usize, frames: &mut u64) -> u32 {
    // SAFETY: as for `refused_at`, and it writes the two that it is lent.
    unsafe { lent::worfelli_list_info(list.as_ptr(), list.len(), voices, frames) }
}

/// The two calls of the player as C has them, for who calls them on a stack of
/// their own.
#[must_use]
pub fn player_addresses() -> [usize; 2] {
    let (play, refused_at) = (lent::worfelli_play, lent::worfelli_refused_at);
    [play as *const () as usize, refused_at as *const () as usize]
}
