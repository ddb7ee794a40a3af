//! Stand-ins for `exp_m1`, `exp`, `ln_1p` and `powi`, whose last bits vary by
//! machine: fixed steps in binary64, each operation rounded once. The derived
//! Rust uses them, and the Rattle is compared with them.

/// The natural logarithm of 2.
const LN2: f64 = f64::from_bits(0x3fe6_2e42_fefa_39ef);

/// e^z − 1: a series at z / 64, then doubled six times.
#[must_use]
pub fn exp_m1(z: f64) -> f64 {
    let w = z / 64.0;
    let mut t = 1.0;
    for j in (2..=12).rev() {
        t = 1.0 + (w * t) / f64::from(j);
    }
    let mut y = w * t;
    for _ in 0..6 {
        y *= y + 2.0;
    }
    y
}

/// e^z.
#[must_use]
pub fn exp(z: f64) -> f64 {
    exp_m1(z) + 1.0
}

/// The natural logarithm of 1 + a.
#[must_use]
pub fn ln_1p(a: f64) -> f64 {
    let w = 1.0 + a;
    if w == 1.0 {
        return a;
    }
    if w.is_nan() || w.is_infinite() || w <= 0.0 {
        return f64::NAN;
    }
    let (m, e) = split(w);
    let s = (m - 1.0) / (m + 1.0);
    let mut t = 1.0 / 23.0;
    for j in (1..=21).rev().step_by(2) {
        t = 1.0 / f64::from(j) + (s * s) * t;
    }
    // The last factor gives back what rounding 1 + a took away.
    (f64::from(e) * LN2 + (2.0 * s) * t) * (a / (w - 1.0))
}

/// `w` as (m, e) with w = m × 2^e and 0.75 ≤ m < 1.5. `w` has to be normal and
/// above 0, as every rounded 1 + a above 0 is: the least is 2^-53.
fn split(w: f64) -> (f64, i32) {
    let bits = w.to_bits();
    let e = (bits >> 52) as i32 - 1023;
    let m = f64::from_bits((bits & ((1 << 52) - 1)) | 1.0_f64.to_bits());
    if m >= 1.5 { (m / 2.0, e + 1) } else { (m, e) }
}

/// r to the power of `len`, by squaring from the highest one bit down. A `len`
/// of 0 has no bit below a highest one bit, so it answers `r`.
#[must_use]
pub fn powi(r: f64, len: u32) -> f64 {
    let below = (u32::BITS - len.leading_zeros()).saturating_sub(1);
    let mut p = r;
    for bit in (0..below).rev() {
        p *= p;
        if (len >> bit) & 1 == 1 {
            p *= r;
        }
    }
    p
}

/// The stand-ins as methods, so that a substitution in the Rust changes a
/// method's name and nothing of the expression around it.
pub trait StandIn {
    fn stand_in_exp_m1(self) -> Self;
    fn stand_in_exp(self) -> Self;
    fn stand_in_ln_1p(self) -> Self;
    fn stand_in_powi(self, len: u32) -> Self;
}

impl StandIn for f64 {
    fn stand_in_exp_m1(self) -> f64 {
        exp_m1(self)
    }

    fn stand_in_exp(self) -> f64 {
        exp(self)
    }

    fn stand_in_ln_1p(self) -> f64 {
        ln_1p(self)
    }

    fn stand_in_powi(self, len: u32) -> f64 {
        powi(self, len)
    }
}

#[cfg(test)]
mod tests {
    use super::*;

    /// Whether `a` is `b` but for the last bits of some `roundings`.
    fn close(a: f64, b: f64, roundings: u32) -> bool {
        (a - b).abs() <= f64::from(roundings) * f64::EPSILON * b.abs()
    }

    #[test]
    fn near_the_true_functions() {
        for step in -1200..=1200 {
            let z = f64::from(step) / 100.0;
            assert!(close(exp_m1(z), z.exp_m1(), 100), "exp_m1({z})");
            assert!(close(exp(z), z.exp(), 100) || z < 0.0, "exp({z})");
        }
        for step in -999..=5000 {
            let a = f64::from(step) / 1000.0;
            assert!(close(ln_1p(a), a.ln_1p(), 10), "ln_1p({a})");
        }
        for len in 1..=16384 {
            let r = 0.99927;
            assert!(
                close(powi(r, len), r.powi(len as i32), 2 * len),
                "powi({len})"
            );
        }
    }

    #[test]
    fn edges() {
        assert_eq!(exp_m1(0.0).to_bits(), 0);
        assert_eq!(powi(3.0, 0), 3.0);
        assert_eq!(powi(3.0, 1), 3.0);
        assert_eq!(ln_1p(1e-300), 1e-300);
        for a in [-1.0, -2.0, f64::INFINITY, f64::NEG_INFINITY, f64::NAN] {
            assert!(ln_1p(a).is_nan(), "ln_1p({a})");
        }
    }
}
