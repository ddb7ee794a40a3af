//! A small random generator (SplitMix64): a seed gives the same inputs on
//! every machine.

/// The generator's state.
pub struct Random(u64);

impl Random {
    #[must_use]
    pub fn new(seed: u64) -> Self {
        Self(seed)
    }

    /// The generator of one named part of a run, so that a change to one part
    /// leaves the inputs of the others as they were.
    #[must_use]
    pub fn named(seed: u64, name: &str) -> Self {
        let mut random = Self::new(seed);
        for byte in name.bytes() {
            random.0 = random.bits() ^ u64::from(byte);
        }
        random
    }

    /// 64 random bits.
    pub fn bits(&mut self) -> u64 {
        self.0 = self.0.wrapping_add(0x9e37_79b9_7f4a_7c15);
        let mut z = self.0;
        z = (z ^ (z >> 30)).wrapping_mul(0xbf58_476d_1ce4_e5b9);
        z = (z ^ (z >> 27)).wrapping_mul(0x94d0_49bb_1331_11eb);
        z ^ (z >> 31)
    }

    /// A whole number below `bound`, which has to be above 0.
    pub fn below(&mut self, bound: u64) -> u64 {
        ((u128::from(self.bits()) * u128::from(bound)) >> 64) as u64
    }

    /// True or false.
    pub fn coin(&mut self) -> bool {
        self.bits() >> 63 == 1
    }

    /// One of `from`, which must not be empty.
    pub fn choose<T: Copy>(&mut self, from: &[T]) -> T {
        from[self.below(from.len() as u64) as usize]
    }

    /// A whole number of a random length, from 0 to 64 bits.
    pub fn u64_of_any_length(&mut self) -> u64 {
        let bits = self.bits();
        bits.checked_shr(self.below(65) as u32).unwrap_or(0)
    }

    /// Any bit pattern.
    pub fn f32_bits(&mut self) -> f32 {
        f32::from_bits((self.bits() >> 32) as u32)
    }

    /// Any bit pattern.
    pub fn f64_bits(&mut self) -> f64 {
        f64::from_bits(self.bits())
    }

    /// A number from `low` up to `high`, evenly.
    pub fn between(&mut self, low: f64, high: f64) -> f64 {
        let fraction = (self.bits() >> 11) as f64 / (1_u64 << 53) as f64;
        low + (high - low) * fraction
    }

    /// A normal number of either sign, its exponent within `low..=high` evenly.
    pub fn scaled(&mut self, low: i32, high: i32) -> f64 {
        let exponent = low + self.below((high - low + 1) as u64) as i32;
        let field = (exponent + 1023) as u64;
        let sign_and_significand = self.bits() & !(0x7ff << 52);
        f64::from_bits(sign_and_significand | (field << 52))
    }
}
