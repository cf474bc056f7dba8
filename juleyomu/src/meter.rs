//! The admission meter.

use crate::capacity::BUCKETS;
use crate::ffi;

/// How much weight the mempool admits: a decaying average for each fee bucket, and a total.
///
/// A clock is any count of nanoseconds that the caller keeps. A clock that went back counts as a gap of 0.
#[derive(Clone, Debug, PartialEq)]
pub struct Meter(Box<ffi::FeeFlowMeter>);

impl Meter {
    /// A meter that has seen nothing.
    #[must_use]
    pub fn new(now: u64) -> Meter {
        Meter(Box::new(ffi::juleyomu_fee_flow_meter(now)))
    }

    /// Notes a transaction of `weight_wu` WU at `rate` sat/kvB, admitted now.
    pub fn note_admit(&mut self, weight_wu: u64, rate: u64, now: u64) {
        ffi::juleyomu_note_admit(&mut self.0, weight_wu, rate, now);
    }

    /// How full the meter is, from 0 to 1. It is the warm-up share of a [`Board`](crate::Board). A read decays the
    /// meter.
    pub fn fullness(&mut self, now: u64) -> f64 {
        ffi::juleyomu_fullness(&mut self.0, now)
    }

    /// The WU/s that flow into each bucket, rounded. A read decays the meter.
    pub fn admit_rates_wu_s(&mut self, now: u64) -> [u64; BUCKETS] {
        ffi::juleyomu_admit_rates_wu_s(&mut self.0, now).wu_s
    }

    /// The half-life of what is noted, in seconds.
    #[must_use]
    pub fn half_life_secs() -> f64 {
        ffi::juleyomu_admit_half_life_secs()
    }

    /// The admitted weight in WU from which on the meter is full.
    #[must_use]
    pub fn full_wu() -> f64 {
        ffi::juleyomu_flow_full_wu()
    }
}
