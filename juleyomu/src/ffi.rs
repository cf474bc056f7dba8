//! The functions of `libexports.a` as they are linked, and a safe call of each that lends lists. Nowhere else is
//! `unsafe`.
//!
//! What every call rests on: a function of the library returns for all values of its arguments, reads and writes only
//! what is behind the pointers that it is given, by their lengths, writes only behind `*mut` and `&mut`, and keeps no
//! pointer. The contracts in `crates/exports/src` say so. A call is then safe where each pointer and length are one
//! slice's and no written slice overlaps another, which the borrows of the safe calls say.

use crate::capacity::{BUCKETS, EDGES};
use crate::history::MAX_TARGETS;
use crate::marked::Marked;
use crate::memory::Memory;

/// A rate that may be missing: 1 and its number, or 0 and 0.
#[repr(C)]
#[derive(Clone, Copy)]
pub(crate) struct MarkedRate {
    pub(crate) mark: u8,
    pub(crate) rate: u64,
}

/// An answer: a refusal or 0; 1 where a rate is there and else 0; the rate or 0.
#[repr(C)]
pub(crate) struct RateFields {
    pub(crate) refusal: u8,
    pub(crate) mark: u8,
    pub(crate) rate: u64,
}

/// A refusal or 0, and a count or 0.
#[repr(C)]
pub(crate) struct CountFields {
    pub(crate) refusal: u8,
    pub(crate) count: usize,
}

/// The admission meter.
#[repr(C)]
#[derive(Clone, Debug, PartialEq)]
pub(crate) struct FeeFlowMeter {
    admit_wu_s: [f64; BUCKETS],
    admitted_wu: f64,
    last: u64,
    last_admit: u64,
}

/// The WU/s of each bucket.
#[repr(C)]
pub(crate) struct AdmitRates {
    pub(crate) wu_s: [u64; BUCKETS],
}

/// Pair windows.
#[repr(C)]
#[derive(Clone, Copy, Debug)]
pub(crate) struct AnalogHistory {
    pub(crate) targets: [u32; MAX_TARGETS],
    pub(crate) tracked: usize,
    pub(crate) capacity: usize,
    start: usize,
    count: usize,
}

/// A block with its marked rate.
#[repr(C)]
pub(crate) struct MarkedBlock {
    pub(crate) mark: u8,
    pub(crate) rate: u64,
    pub(crate) bytes: u64,
}

/// A refusal or 0; whether the height is held, and its block.
#[repr(C)]
pub(crate) struct BlockFields {
    pub(crate) refusal: u8,
    pub(crate) held: bool,
    pub(crate) block: MarkedBlock,
}

/// A hash, or none.
#[repr(C)]
pub(crate) struct BlockHash {
    pub(crate) there: bool,
    pub(crate) bytes: [u8; 32],
}

/// A history's state.
#[repr(C)]
#[derive(Clone, Copy, Debug)]
pub(crate) struct FeeHistory {
    pub(crate) analog: AnalogHistory,
    analog_stale: bool,
    start: usize,
    pub(crate) count: usize,
    pub(crate) txstat_bytes: u64,
    pub(crate) budget: u64,
    pub(crate) hashes: usize,
    kept: bool,
    kept_numbers: [u64; MAX_TARGETS],
    kept_marks: [u8; MAX_TARGETS],
}

/// A refusal or 0, and the state.
#[repr(C)]
pub(crate) struct HistoryFields {
    pub(crate) refusal: u8,
    pub(crate) state: FeeHistory,
}

/// The sizes and offsets that `include/check.c` asserts of the header's structs.
const _: () = {
    use std::mem::{offset_of, size_of};
    assert!(size_of::<MarkedRate>() == 16);
    assert!(size_of::<RateFields>() == 16);
    assert!(offset_of!(RateFields, mark) == 1);
    assert!(size_of::<CountFields>() == 16);
    assert!(size_of::<FeeFlowMeter>() == 3240);
    assert!(offset_of!(FeeFlowMeter, last_admit) == 3232);
    assert!(size_of::<AdmitRates>() == 3216);
    assert!(size_of::<AnalogHistory>() == 96);
    assert!(size_of::<MarkedBlock>() == 24);
    assert!(size_of::<BlockFields>() == 32);
    assert!(offset_of!(BlockFields, held) == 1);
    assert!(size_of::<BlockHash>() == 33);
    assert!(size_of::<FeeHistory>() == 296);
    assert!(offset_of!(FeeHistory, txstat_bytes) == 120);
    assert!(offset_of!(FeeHistory, kept_marks) == 280);
    assert!(size_of::<HistoryFields>() == 304);
};

// SAFETY: the names and types are those of `crates/exports/src` (`tests/header.rs` compares them). The functions
// marked `safe` take numbers, structs of numbers, and unique references.
unsafe extern "C" {
    pub(crate) safe fn juleyomu_bucket_index(rate: u64) -> usize;
    pub(crate) safe fn juleyomu_first_bucket_above(rate: u64) -> usize;
    pub(crate) safe fn juleyomu_effective_capacity_wu(n: u32) -> u64;
    pub(crate) safe fn juleyomu_flow_bucket_edges(out: &mut [u64; EDGES]);
    pub(crate) safe fn juleyomu_analog_lookback(n: u32) -> usize;
    pub(crate) safe fn juleyomu_admit_half_life_secs() -> f64;
    pub(crate) safe fn juleyomu_flow_full_wu() -> f64;
    pub(crate) safe fn juleyomu_fee_flow_meter(now: u64) -> FeeFlowMeter;
    pub(crate) safe fn juleyomu_fullness(m: &mut FeeFlowMeter, t: u64) -> f64;
    pub(crate) safe fn juleyomu_admit_rates_wu_s(m: &mut FeeFlowMeter, t: u64) -> AdmitRates;
    pub(crate) safe fn juleyomu_note_admit(m: &mut FeeFlowMeter, weight_wu: u64, rate: u64, t: u64);
    pub(crate) safe fn juleyomu_warmup_blend(
        alpha: f64,
        cold: MarkedRate,
        warm: MarkedRate,
    ) -> MarkedRate;
    pub(crate) safe fn juleyomu_lerp_sat_kvb(
        d0: u32,
        left: u64,
        d1: u32,
        right: u64,
        target: u32,
    ) -> u64;

    fn juleyomu_min_rate_for_capacity(
        candidates: *const u64,
        candidates_len: usize,
        stock: *const u64,
        stock_len: usize,
        inflow: *const u64,
        inflow_len: usize,
        n: u32,
    ) -> RateFields;
    fn juleyomu_percentile_sat(v: *const u64, v_len: usize, pct: u8) -> RateFields;
    fn juleyomu_lower_median(values: *const u64, values_len: usize) -> RateFields;
    fn juleyomu_log_quantile(
        outcomes: *mut u64,
        outcomes_len: usize,
        confidence: f64,
    ) -> RateFields;
    fn juleyomu_hold_defined_then_monotone(
        rates: *mut u64,
        rates_len: usize,
        marks: *mut u8,
        marks_len: usize,
    ) -> u8;
    fn juleyomu_published_depth_rates(
        depths: *const u32,
        depths_len: usize,
        projected: *const u64,
        projected_len: usize,
        projected_marks: *const u8,
        projected_marks_len: usize,
        frontier: *const u64,
        frontier_len: usize,
        frontier_marks: *const u8,
        frontier_marks_len: usize,
        history: *const u64,
        history_len: usize,
        history_marks: *const u8,
        history_marks_len: usize,
        confirm: MarkedRate,
        alpha: f64,
        out: *mut u64,
        out_len: usize,
        out_marks: *mut u8,
        out_marks_len: usize,
    ) -> u8;
    fn juleyomu_fee_at_target_sat_kvb(
        depths: *const u32,
        depths_len: usize,
        rates: *const u64,
        rates_len: usize,
        marks: *const u8,
        marks_len: usize,
        target: u32,
    ) -> RateFields;
    fn juleyomu_history_new(
        budget: u64,
        targets: *const u32,
        targets_len: usize,
        capacity: usize,
        heights: *const u32,
        heights_len: usize,
        marks: *const u8,
        marks_len: usize,
        rates: *const u64,
        rates_len: usize,
        sizes: *const u64,
        sizes_len: usize,
        hash_heights: *const u32,
        hash_heights_len: usize,
        hash_bytes: *const u8,
        hash_bytes_len: usize,
        hurdles: *const u64,
        hurdles_len: usize,
        befores: *const f64,
        befores_len: usize,
        aheads: *const u64,
        aheads_len: usize,
    ) -> HistoryFields;
    fn juleyomu_history_get(
        state: FeeHistory,
        height: u32,
        heights: *const u32,
        heights_len: usize,
        marks: *const u8,
        marks_len: usize,
        rates: *const u64,
        rates_len: usize,
        sizes: *const u64,
        sizes_len: usize,
    ) -> BlockFields;
    fn juleyomu_history_insert(
        state: FeeHistory,
        height: u32,
        block: MarkedBlock,
        hash: BlockHash,
        heights: *mut u32,
        heights_len: usize,
        marks: *mut u8,
        marks_len: usize,
        rates: *mut u64,
        rates_len: usize,
        sizes: *mut u64,
        sizes_len: usize,
        hash_heights: *mut u32,
        hash_heights_len: usize,
        hash_bytes: *mut u8,
        hash_bytes_len: usize,
        hurdles: *mut u64,
        hurdles_len: usize,
        befores: *mut f64,
        befores_len: usize,
        aheads: *mut u64,
        aheads_len: usize,
    ) -> HistoryFields;
    fn juleyomu_history_insert_if_absent(
        state: FeeHistory,
        height: u32,
        block: MarkedBlock,
        hash: BlockHash,
        heights: *mut u32,
        heights_len: usize,
        marks: *mut u8,
        marks_len: usize,
        rates: *mut u64,
        rates_len: usize,
        sizes: *mut u64,
        sizes_len: usize,
        hash_heights: *mut u32,
        hash_heights_len: usize,
        hash_bytes: *mut u8,
        hash_bytes_len: usize,
        hurdles: *mut u64,
        hurdles_len: usize,
        befores: *mut f64,
        befores_len: usize,
        aheads: *mut u64,
        aheads_len: usize,
    ) -> HistoryFields;
    fn juleyomu_history_truncate_above(
        state: FeeHistory,
        height: u32,
        heights: *const u32,
        heights_len: usize,
        marks: *const u8,
        marks_len: usize,
        rates: *const u64,
        rates_len: usize,
        sizes: *const u64,
        sizes_len: usize,
        hash_heights: *const u32,
        hash_heights_len: usize,
        hash_bytes: *const u8,
        hash_bytes_len: usize,
    ) -> HistoryFields;
    fn juleyomu_history_rates(
        state: FeeHistory,
        heights: *const u32,
        heights_len: usize,
        marks: *const u8,
        marks_len: usize,
        rates: *const u64,
        rates_len: usize,
        sizes: *const u64,
        sizes_len: usize,
        hurdles: *mut u64,
        hurdles_len: usize,
        befores: *mut f64,
        befores_len: usize,
        aheads: *mut u64,
        aheads_len: usize,
        scratch: *mut u64,
        scratch_len: usize,
        out_numbers: *mut u64,
        out_numbers_len: usize,
        out_marks: *mut u8,
        out_marks_len: usize,
    ) -> HistoryFields;
    fn juleyomu_history_entries(
        state: FeeHistory,
        heights: *const u32,
        heights_len: usize,
        marks: *const u8,
        marks_len: usize,
        rates: *const u64,
        rates_len: usize,
        sizes: *const u64,
        sizes_len: usize,
        out_heights: *mut u32,
        out_heights_len: usize,
        out_marks: *mut u8,
        out_marks_len: usize,
        out_rates: *mut u64,
        out_rates_len: usize,
        out_sizes: *mut u64,
        out_sizes_len: usize,
    ) -> CountFields;
    fn juleyomu_history_recent_hashes(
        state: FeeHistory,
        heights: *const u32,
        heights_len: usize,
        bytes: *const u8,
        bytes_len: usize,
        out_heights: *mut u32,
        out_heights_len: usize,
        out_bytes: *mut u8,
        out_bytes_len: usize,
    ) -> CountFields;
}

pub(crate) fn min_rate_for_capacity(
    candidates: &[u64],
    stock: &[u64],
    inflow: &[u64],
    n: u32,
) -> RateFields {
    // SAFETY: each pointer and length are one slice's; the slices are only read.
    unsafe {
        juleyomu_min_rate_for_capacity(
            candidates.as_ptr(),
            candidates.len(),
            stock.as_ptr(),
            stock.len(),
            inflow.as_ptr(),
            inflow.len(),
            n,
        )
    }
}

pub(crate) fn percentile_sat(rates: &[u64], pct: u8) -> RateFields {
    // SAFETY: each pointer and length are one slice's; the slice is only read.
    unsafe { juleyomu_percentile_sat(rates.as_ptr(), rates.len(), pct) }
}

pub(crate) fn lower_median(rates: &[u64]) -> RateFields {
    // SAFETY: each pointer and length are one slice's; the slice is only read.
    unsafe { juleyomu_lower_median(rates.as_ptr(), rates.len()) }
}

pub(crate) fn log_quantile(rates: &mut [u64], confidence: f64) -> RateFields {
    // SAFETY: pointer and length are one slice's, borrowed uniquely.
    unsafe { juleyomu_log_quantile(rates.as_mut_ptr(), rates.len(), confidence) }
}

pub(crate) fn hold_defined_then_monotone(rates: &mut Marked) -> u8 {
    // SAFETY: each pointer and length are one slice's; those written are borrowed uniquely.
    unsafe {
        juleyomu_hold_defined_then_monotone(
            rates.numbers.as_mut_ptr(),
            rates.numbers.len(),
            rates.marks.as_mut_ptr(),
            rates.marks.len(),
        )
    }
}

pub(crate) fn published_depth_rates(
    depths: &[u32],
    projected: &Marked,
    frontier: &Marked,
    history: &Marked,
    confirm: MarkedRate,
    share: f64,
    out: &mut Marked,
) -> u8 {
    // SAFETY: each pointer and length are one slice's; those written are borrowed uniquely.
    unsafe {
        juleyomu_published_depth_rates(
            depths.as_ptr(),
            depths.len(),
            projected.numbers.as_ptr(),
            projected.numbers.len(),
            projected.marks.as_ptr(),
            projected.marks.len(),
            frontier.numbers.as_ptr(),
            frontier.numbers.len(),
            frontier.marks.as_ptr(),
            frontier.marks.len(),
            history.numbers.as_ptr(),
            history.numbers.len(),
            history.marks.as_ptr(),
            history.marks.len(),
            confirm,
            share,
            out.numbers.as_mut_ptr(),
            out.numbers.len(),
            out.marks.as_mut_ptr(),
            out.marks.len(),
        )
    }
}

pub(crate) fn fee_at_target(depths: &[u32], rates: &Marked, target: u32) -> RateFields {
    // SAFETY: each pointer and length are one slice's; the slices are only read.
    unsafe {
        juleyomu_fee_at_target_sat_kvb(
            depths.as_ptr(),
            depths.len(),
            rates.numbers.as_ptr(),
            rates.numbers.len(),
            rates.marks.as_ptr(),
            rates.marks.len(),
            target,
        )
    }
}

pub(crate) fn history_new(
    budget: u64,
    targets: &[u32],
    capacity: usize,
    memory: &Memory,
) -> HistoryFields {
    // SAFETY: each pointer and length are one slice's; the slices are only read.
    unsafe {
        juleyomu_history_new(
            budget,
            targets.as_ptr(),
            targets.len(),
            capacity,
            memory.heights.as_ptr(),
            memory.heights.len(),
            memory.marks.as_ptr(),
            memory.marks.len(),
            memory.rates.as_ptr(),
            memory.rates.len(),
            memory.sizes.as_ptr(),
            memory.sizes.len(),
            memory.hash_heights.as_ptr(),
            memory.hash_heights.len(),
            memory.hash_bytes.as_ptr(),
            memory.hash_bytes.len(),
            memory.hurdles.as_ptr(),
            memory.hurdles.len(),
            memory.befores.as_ptr(),
            memory.befores.len(),
            memory.aheads.as_ptr(),
            memory.aheads.len(),
        )
    }
}

pub(crate) fn history_get(state: FeeHistory, height: u32, memory: &Memory) -> BlockFields {
    // SAFETY: each pointer and length are one list's of the memory; the lists are only read.
    unsafe {
        juleyomu_history_get(
            state,
            height,
            memory.heights.as_ptr(),
            memory.heights.len(),
            memory.marks.as_ptr(),
            memory.marks.len(),
            memory.rates.as_ptr(),
            memory.rates.len(),
            memory.sizes.as_ptr(),
            memory.sizes.len(),
        )
    }
}

pub(crate) fn history_insert(
    state: FeeHistory,
    height: u32,
    block: MarkedBlock,
    hash: BlockHash,
    memory: &mut Memory,
) -> HistoryFields {
    // SAFETY: each pointer and length are one list's of the memory, which is borrowed uniquely.
    unsafe {
        juleyomu_history_insert(
            state,
            height,
            block,
            hash,
            memory.heights.as_mut_ptr(),
            memory.heights.len(),
            memory.marks.as_mut_ptr(),
            memory.marks.len(),
            memory.rates.as_mut_ptr(),
            memory.rates.len(),
            memory.sizes.as_mut_ptr(),
            memory.sizes.len(),
            memory.hash_heights.as_mut_ptr(),
            memory.hash_heights.len(),
            memory.hash_bytes.as_mut_ptr(),
            memory.hash_bytes.len(),
            memory.hurdles.as_mut_ptr(),
            memory.hurdles.len(),
            memory.befores.as_mut_ptr(),
            memory.befores.len(),
            memory.aheads.as_mut_ptr(),
            memory.aheads.len(),
        )
    }
}

pub(crate) fn history_insert_if_absent(
    state: FeeHistory,
    height: u32,
    block: MarkedBlock,
    hash: BlockHash,
    memory: &mut Memory,
) -> HistoryFields {
    // SAFETY: each pointer and length are one list's of the memory, which is borrowed uniquely.
    unsafe {
        juleyomu_history_insert_if_absent(
            state,
            height,
            block,
            hash,
            memory.heights.as_mut_ptr(),
            memory.heights.len(),
            memory.marks.as_mut_ptr(),
            memory.marks.len(),
            memory.rates.as_mut_ptr(),
            memory.rates.len(),
            memory.sizes.as_mut_ptr(),
            memory.sizes.len(),
            memory.hash_heights.as_mut_ptr(),
            memory.hash_heights.len(),
            memory.hash_bytes.as_mut_ptr(),
            memory.hash_bytes.len(),
            memory.hurdles.as_mut_ptr(),
            memory.hurdles.len(),
            memory.befores.as_mut_ptr(),
            memory.befores.len(),
            memory.aheads.as_mut_ptr(),
            memory.aheads.len(),
        )
    }
}

pub(crate) fn history_truncate_above(
    state: FeeHistory,
    height: u32,
    memory: &Memory,
) -> HistoryFields {
    // SAFETY: each pointer and length are one list's of the memory; the lists are only read.
    unsafe {
        juleyomu_history_truncate_above(
            state,
            height,
            memory.heights.as_ptr(),
            memory.heights.len(),
            memory.marks.as_ptr(),
            memory.marks.len(),
            memory.rates.as_ptr(),
            memory.rates.len(),
            memory.sizes.as_ptr(),
            memory.sizes.len(),
            memory.hash_heights.as_ptr(),
            memory.hash_heights.len(),
            memory.hash_bytes.as_ptr(),
            memory.hash_bytes.len(),
        )
    }
}

pub(crate) fn history_rates(
    state: FeeHistory,
    memory: &mut Memory,
    out: &mut Marked,
) -> HistoryFields {
    // SAFETY: each pointer and length are one slice's; those written are borrowed uniquely.
    unsafe {
        juleyomu_history_rates(
            state,
            memory.heights.as_ptr(),
            memory.heights.len(),
            memory.marks.as_ptr(),
            memory.marks.len(),
            memory.rates.as_ptr(),
            memory.rates.len(),
            memory.sizes.as_ptr(),
            memory.sizes.len(),
            memory.hurdles.as_mut_ptr(),
            memory.hurdles.len(),
            memory.befores.as_mut_ptr(),
            memory.befores.len(),
            memory.aheads.as_mut_ptr(),
            memory.aheads.len(),
            memory.scratch.as_mut_ptr(),
            memory.scratch.len(),
            out.numbers.as_mut_ptr(),
            out.numbers.len(),
            out.marks.as_mut_ptr(),
            out.marks.len(),
        )
    }
}

pub(crate) fn history_entries(
    state: FeeHistory,
    memory: &Memory,
    heights: &mut [u32],
    rates: &mut Marked,
    sizes: &mut [u64],
) -> CountFields {
    // SAFETY: each pointer and length are one slice's; those written are borrowed uniquely.
    unsafe {
        juleyomu_history_entries(
            state,
            memory.heights.as_ptr(),
            memory.heights.len(),
            memory.marks.as_ptr(),
            memory.marks.len(),
            memory.rates.as_ptr(),
            memory.rates.len(),
            memory.sizes.as_ptr(),
            memory.sizes.len(),
            heights.as_mut_ptr(),
            heights.len(),
            rates.marks.as_mut_ptr(),
            rates.marks.len(),
            rates.numbers.as_mut_ptr(),
            rates.numbers.len(),
            sizes.as_mut_ptr(),
            sizes.len(),
        )
    }
}

pub(crate) fn history_recent_hashes(
    state: FeeHistory,
    memory: &Memory,
    heights: &mut [u32],
    bytes: &mut [u8],
) -> CountFields {
    // SAFETY: each pointer and length are one slice's; those written are borrowed uniquely.
    unsafe {
        juleyomu_history_recent_hashes(
            state,
            memory.hash_heights.as_ptr(),
            memory.hash_heights.len(),
            memory.hash_bytes.as_ptr(),
            memory.hash_bytes.len(),
            heights.as_mut_ptr(),
            heights.len(),
            bytes.as_mut_ptr(),
            bytes.len(),
        )
    }
}
