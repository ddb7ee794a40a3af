//! The inputs at which number code goes wrong: edges of exponents and
//! significands, neighbours, and the halves between representable numbers.

/// NaNs of binary64: quiet and signalling, both signs, plain and with payload.
const NANS: [u64; 6] = [
    0x7ff8_0000_0000_0000,
    0xfff8_0000_0000_0000,
    0x7ff0_0000_0000_0001,
    0xfff0_0000_0000_0001,
    0x7fff_ffff_ffff_ffff,
    0xfff4_dead_beef_0000,
];

/// Sizes of binary64 at which something changes.
const SIZES: [f64; 15] = [
    0.0,
    f64::from_bits(1),
    f64::from_bits((1 << 52) - 1),
    f64::MIN_POSITIVE,
    0.1,
    0.49999999999999994,
    0.5,
    1.0,
    1.5,
    10.0,
    1000.0,
    9007199254740992.0,
    18446744073709551616.0,
    f64::MAX,
    f64::INFINITY,
];

/// A few numbers of every kind, short enough for pairs and triples.
#[must_use]
pub fn specials_f64() -> Vec<f64> {
    let signed = SIZES.into_iter().flat_map(|x| [x, -x]);
    signed.chain(NANS.map(f64::from_bits)).collect()
}

/// Every exponent of binary32 with the edges of its significands, both signs:
/// zeros, subnormals, powers of two and their neighbours, infinities, NaNs.
pub fn edges_f32() -> impl Iterator<Item = f32> {
    const TOP: u32 = 1 << 22;
    const ALL: u32 = (1 << 23) - 1;
    let significands = [
        0,
        1,
        2,
        3,
        TOP - 1,
        TOP,
        TOP + 1,
        0x2a_aaaa,
        0x55_5555,
        ALL - 1,
        ALL,
    ];
    (0..512_u32).flat_map(move |sign_and_exponent| {
        significands.map(|s| f32::from_bits((sign_and_exponent << 23) | s))
    })
}

/// Every exponent of binary64 with the edges of its significands, both signs.
/// The upper 23 digits, which narrowing keeps, are even and odd; the lower 29,
/// which it drops, stand at their ends and at and around one half.
pub fn edges_f64() -> impl Iterator<Item = f64> {
    const KEPT: [u64; 9] = [
        0, 1, 2, 0x3f_ffff, 0x40_0000, 0x40_0001, 0x55_5555, 0x7f_fffe, 0x7f_ffff,
    ];
    const HALF: u64 = 1 << 28;
    const DROPPED: [u64; 7] = [0, 1, HALF - 1, HALF, HALF + 1, 2 * HALF - 2, 2 * HALF - 1];
    (0..4096_u64).flat_map(|sign_and_exponent| {
        KEPT.into_iter().flat_map(move |kept| {
            DROPPED
                .map(|dropped| f64::from_bits((sign_and_exponent << 52) | (kept << 29) | dropped))
        })
    })
}

/// `x` with the two numbers below it and the two above.
#[must_use]
pub fn around(x: f64) -> [f64; 5] {
    [
        x.next_down().next_down(),
        x.next_down(),
        x,
        x.next_up(),
        x.next_up().next_up(),
    ]
}

/// The middle between `x` and the binary32 above it in size, with what is
/// around it: where narrowing has to choose. It is exact in binary64 for
/// subnormals too, and above the largest number it is where overflow begins.
#[must_use]
pub fn around_narrowing_half(x: f32) -> [f64; 5] {
    let size = x.abs();
    let above = if size == f32::MAX {
        2.0 * f64::from(f32::from_bits(0x7f00_0000))
    } else {
        f64::from(size.next_up())
    };
    let half = (f64::from(size) + above) / 2.0;
    around(half.copysign(f64::from(x)))
}

/// Numbers around `n` with its length, where conversion to binary64 has to
/// choose: the digits past the 53 kept at, below and above one half, the kept
/// ones even and odd. None if there are no such digits.
pub fn around_whole_half(n: u64) -> impl Iterator<Item = u64> {
    let dropped = 11_u32.saturating_sub(n.leading_zeros());
    let kept = n.checked_shr(dropped).unwrap_or(0) << dropped;
    let last_kept = 1_u64 << dropped;
    let half = last_kept >> 1;
    [kept & !last_kept, kept | last_kept]
        .into_iter()
        .flat_map(move |kept| [half - 1, half, half + 1].map(|low| kept | low))
        .take(if dropped == 0 { 0 } else { 6 })
}
