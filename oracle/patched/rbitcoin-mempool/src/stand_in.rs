//! Stand-ins for `f64::exp` and `f64::ln`, whose precision Rust leaves open. Every operation here is
//! a single one of IEEE 754, so the result is the same on every machine.

use std::f64::consts::{LOG2_E, SQRT_2};

/// The upper and the lower part of ln 2.
const HI: f64 = f64::from_bits(0x3FE6_2E42_FEE0_0000);
const LO: f64 = f64::from_bits(0x3DEA_39EF_3579_3C76);

pub fn exp(x: f64) -> f64 {
    if x.is_nan() {
        return x;
    }
    if x < -708.0 {
        return 0.0;
    }
    if x > 709.0 {
        return f64::INFINITY;
    }
    let k = (x * LOG2_E).round();
    let r = (x - k * HI) - k * LO;
    let mut t = 1.0;
    for j in (1..=13).rev() {
        t = 1.0 + (r * t) / f64::from(j);
    }
    // k lies from -1021 to 1023, where 2^k is a normal number.
    t * f64::from_bits(((k as i64 + 1023) as u64) << 52)
}

/// For 0 and for finite values from 1 up. Nothing else reaches it: the callers pass a u64 as f64, or
/// `ANALOG_BAND`.
pub fn ln(x: f64) -> f64 {
    if x == 0.0 {
        return f64::NEG_INFINITY;
    }
    debug_assert!(x >= 1.0 && x.is_finite());
    // x = m * 2^k, m from 1 to below 2.
    let mut k = (x.to_bits() >> 52) as f64 - 1023.0;
    let mut m = f64::from_bits(x.to_bits() << 12 >> 12 | 1023 << 52);
    if m >= SQRT_2 {
        m /= 2.0;
        k += 1.0;
    }
    let s = (m - 1.0) / (m + 1.0);
    let z = s * s;
    let mut t = 1.0 / 21.0;
    for j in (0..=9).rev() {
        t = 1.0 / f64::from(2 * j + 1) + z * t;
    }
    k * HI + ((2.0 * s) * t + k * LO)
}
