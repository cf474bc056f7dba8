//! Percentile, median and quantile of rates.

use crate::ffi;
use crate::marked::answer;
use crate::refusal::Refusal;

/// The rate at a percentile of rates in any order; above 100 counts as 100. None of an empty list.
#[must_use]
pub fn percentile(rates: &[u64], pct: u8) -> Option<u64> {
    answer(ffi::percentile_sat(rates, pct)).expect("a percentile is never refused")
}

/// The lower median of rates in any order.
///
/// # Errors
///
/// [`Refusal::Empty`] of an empty list.
pub fn lower_median(rates: &[u64]) -> Result<u64, Refusal> {
    answer(ffi::lower_median(rates)).map(|rate| rate.expect("a median is there or refused"))
}

/// The quantile of rates, between two of them on the scale of logarithms. It leaves the list ascending.
///
/// # Errors
///
/// [`Refusal::Empty`] of an empty list, then [`Refusal::Confidence`] of one that is NaN or outside 0 to 1; the list is
/// then left as found.
pub fn log_quantile(rates: &mut [u64], confidence: f64) -> Result<u64, Refusal> {
    let found = answer(ffi::log_quantile(rates, confidence));
    found.map(|rate| rate.expect("a quantile is there or refused"))
}

/// How many rates before a window of `n` blocks say what the time was like: `n` / 4, from 3 to 144.
#[must_use]
pub fn lookback(n: u32) -> usize {
    ffi::juleyomu_analog_lookback(n)
}
