//! The loop over depths and the lookup of a target.

use crate::ffi;
use crate::marked::{Marked, answer};
use crate::refusal::{Refusal, accepted};

/// What the loop over depths is given: a rate or none for each depth.
#[derive(Clone, Copy, Debug)]
pub struct DepthInputs<'a> {
    /// Depths in blocks, never falling.
    pub depths: &'a [u32],
    /// The least rate at which stock and inflow fit into so many blocks.
    pub projected: &'a [Option<u64>],
    /// The rate at which the pool is so many blocks deep; none where it is thinner.
    pub frontier: &'a [Option<u64>],
    /// The historical rate.
    pub history: &'a [Option<u64>],
    /// What was enough lately: up to one block, once the share is finite and above 0, a floor of the warm rate, or that
    /// rate where it is missing.
    pub confirm: Option<u64>,
    /// The warm-up share: history, raised by the frontier, at 0; the live pool and history at 1. What is outside is held
    /// within; NaN and infinities count as 0.
    pub share: f64,
}

/// The published rate at each depth, or none before the first that has one. No rate is above a nearer one.
///
/// # Errors
///
/// [`Refusal::Lengths`] where the lists differ in length, then [`Refusal::Depths`] where a depth is less than the one
/// before it.
pub fn published_depth_rates(inputs: &DepthInputs<'_>) -> Result<Vec<Option<u64>>, Refusal> {
    published(inputs).map(|marked| marked.rates())
}

fn published(inputs: &DepthInputs<'_>) -> Result<Marked, Refusal> {
    let mut out = Marked::missing(inputs.depths.len());
    accepted(ffi::published_depth_rates(
        inputs.depths,
        &Marked::of(inputs.projected),
        &Marked::of(inputs.frontier),
        &Marked::of(inputs.history),
        inputs.confirm.into(),
        inputs.share,
        &mut out,
    ))?;
    Ok(out)
}

/// The quote for a target: the rate of its depth; between two depths the straight line where both have a rate, else the
/// last rate before the target; the last rate beyond them. None below every depth that has a rate, at a depth whose own
/// rate is missing, and for lists that are empty or of different lengths.
///
/// # Errors
///
/// [`Refusal::Depths`] where a depth is less than the one before it.
pub fn fee_at_target(
    depths: &[u32],
    rates: &[Option<u64>],
    target: u32,
) -> Result<Option<u64>, Refusal> {
    answer(ffi::fee_at_target(depths, &Marked::of(rates), target))
}

/// Fills each hole after the first rate from the rate before it, and lowers each rate to the least before it.
pub fn hold_defined_then_monotone(rates: &mut [Option<u64>]) {
    let mut held = Marked::of(rates);
    accepted(ffi::hold_defined_then_monotone(&mut held)).expect("numbers and marks are in step");
    rates.copy_from_slice(&held.rates());
}

/// The straight line from `left` at depth `d0` to `right` at depth `d1`, at `target`; outside of them the nearer end, and
/// `left` where `d1` is not above `d0`.
#[must_use]
pub fn lerp(d0: u32, left: u64, d1: u32, right: u64, target: u32) -> u64 {
    ffi::juleyomu_lerp_sat_kvb(d0, left, d1, right, target)
}

/// Cold and warm blended by the warm-up share, held within 0 to 1, NaN and infinities as 0. Without a cold rate the warm one answers at share 1 alone.
#[must_use]
pub fn warmup_blend(share: f64, cold: Option<u64>, warm: Option<u64>) -> Option<u64> {
    ffi::juleyomu_warmup_blend(share, cold.into(), warm.into()).into()
}

/// Depths with their published rates, ready to quote.
#[derive(Clone, Debug, PartialEq, Eq)]
pub struct Board {
    depths: Vec<u32>,
    rates: Marked,
}

impl Board {
    /// Runs the loop over depths.
    ///
    /// # Errors
    ///
    /// As [`published_depth_rates`].
    pub fn publish(inputs: &DepthInputs<'_>) -> Result<Board, Refusal> {
        Ok(Board {
            depths: inputs.depths.to_vec(),
            rates: published(inputs)?,
        })
    }

    /// The depths in blocks.
    #[must_use]
    pub fn depths(&self) -> &[u32] {
        &self.depths
    }

    /// The published rate at each depth.
    #[must_use]
    pub fn rates(&self) -> Vec<Option<u64>> {
        self.rates.rates()
    }

    /// The quote for a target in blocks, as [`fee_at_target`]. No target is quoted above a nearer one
    /// (proved for rates up to 2^50 sat/kvB).
    #[must_use]
    pub fn quote(&self, target: u32) -> Option<u64> {
        let found = ffi::fee_at_target(&self.depths, &self.rates, target);
        answer(found).expect("the loop accepted these depths and wrote these marks")
    }
}
