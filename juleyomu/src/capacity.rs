//! Fee buckets, the capacity of blocks, and the search for the least rate that fits.

use crate::ffi;
use crate::marked::answer;
use crate::refusal::Refusal;

/// Edges of the fee buckets.
pub const EDGES: usize = 401;

/// Fee buckets: one from each edge on; the last is for rates above the last edge.
pub const BUCKETS: usize = 402;

/// The edges of the buckets in sat/kvB, ascending from 100 to 1,000,000. They are the usual candidates of
/// [`min_rate_for_capacity`].
#[must_use]
pub fn bucket_edges() -> [u64; EDGES] {
    let mut edges = [0; EDGES];
    ffi::juleyomu_flow_bucket_edges(&mut edges);
    edges
}

/// The bucket of a rate.
#[must_use]
pub fn bucket_index(rate: u64) -> usize {
    ffi::juleyomu_bucket_index(rate)
}

/// The first bucket whose floor is above a rate; [`BUCKETS`] where none is.
#[must_use]
pub fn first_bucket_above(rate: u64) -> usize {
    ffi::juleyomu_first_bucket_above(rate)
}

/// The weight of `n` blocks in WU that a quote may fill: 3,200,000 up to one block, else 3,800,000 for each.
#[must_use]
pub fn effective_capacity_wu(n: u32) -> u64 {
    ffi::juleyomu_effective_capacity_wu(n)
}

/// The least candidate above which stock and inflow fit into `n` blocks, or none where no candidate fits.
///
/// `stock` has, for each candidate, the weight in WU that waits strictly above it; `inflow` the WU/s of each bucket, as
/// [`Meter::admit_rates_wu_s`](crate::Meter::admit_rates_wu_s) gives it. Candidates come in any order.
///
/// # Errors
///
/// [`Refusal::Lengths`] where candidates and stock differ in length.
pub fn min_rate_for_capacity(
    candidates: &[u64],
    stock: &[u64],
    inflow: &[u64],
    n: u32,
) -> Result<Option<u64>, Refusal> {
    answer(ffi::min_rate_for_capacity(candidates, stock, inflow, n))
}
