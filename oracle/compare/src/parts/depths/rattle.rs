//! The functions of the Rattle crate `exports`. They write to what is behind a `&mut` and nothing else.

use super::lists::{Lookup, Loop, Marked, MarkedRate};
use crate::lent::RateFields;

unsafe extern "C" {
    #[link_name = "juleyomu_blend_weight"]
    pub safe fn blend_weight(n: u32) -> f64;
    #[link_name = "juleyomu_flow_for_depth"]
    pub safe fn flow_for_depth(projected: MarkedRate, frontier: MarkedRate, n: u32) -> MarkedRate;
    #[link_name = "juleyomu_blend_sat_kvb"]
    pub safe fn blend_sat_kvb(flow: MarkedRate, hist: MarkedRate, n: u32) -> MarkedRate;
    #[link_name = "juleyomu_warmup_blend"]
    pub safe fn warmup_blend(alpha: f64, cold: MarkedRate, warm: MarkedRate) -> MarkedRate;
    #[link_name = "juleyomu_depth_rate_sat_kvb"]
    pub safe fn depth_rate_sat_kvb(
        n: u32,
        flow_warm: bool,
        flow: MarkedRate,
        frontier: MarkedRate,
        hist: MarkedRate,
    ) -> MarkedRate;
    #[link_name = "juleyomu_published_depth_rate"]
    pub safe fn published_depth_rate(
        n: u32,
        alpha: f64,
        flow: MarkedRate,
        frontier: MarkedRate,
        hist: MarkedRate,
        confirm: MarkedRate,
    ) -> MarkedRate;
    #[link_name = "juleyomu_lerp_sat_kvb"]
    pub safe fn lerp_sat_kvb(d0: u32, left: u64, d1: u32, right: u64, target: u32) -> u64;
    fn juleyomu_enforce_monotone_desc(rates: *mut u64, rates_len: usize);
    fn juleyomu_hold_defined_then_monotone(
        rates: *mut u64,
        rates_len: usize,
        marks: *mut u8,
        marks_len: usize,
    ) -> u8;
    fn juleyomu_published_depth_rates(
        depths: *const u32,
        depths_len: usize,
        projected: *const u64,
        projected_len: usize,
        projected_marks: *const u8,
        projected_marks_len: usize,
        frontier: *const u64,
        frontier_len: usize,
        frontier_marks: *const u8,
        frontier_marks_len: usize,
        history: *const u64,
        history_len: usize,
        history_marks: *const u8,
        history_marks_len: usize,
        confirm: MarkedRate,
        alpha: f64,
        out: *mut u64,
        out_len: usize,
        out_marks: *mut u8,
        out_marks_len: usize,
    ) -> u8;
    fn juleyomu_fee_at_target_sat_kvb(
        depths: *const u32,
        depths_len: usize,
        rates: *const u64,
        rates_len: usize,
        marks: *const u8,
        marks_len: usize,
        target: u32,
    ) -> RateFields;
}

pub fn enforce_monotone_desc(rates: &mut [u64]) {
    // SAFETY: pointer and length are one slice's.
    unsafe { juleyomu_enforce_monotone_desc(rates.as_mut_ptr(), rates.len()) }
}

pub fn hold_defined_then_monotone(rates: &mut Marked) -> u8 {
    let Marked { numbers, marks } = rates;
    // SAFETY: each pointer and length are one slice's.
    unsafe {
        juleyomu_hold_defined_then_monotone(
            numbers.as_mut_ptr(),
            numbers.len(),
            marks.as_mut_ptr(),
            marks.len(),
        )
    }
}

/// The output goes to `out`; that of the loop itself is not looked at.
pub fn published_depth_rates(of: &Loop, out: &mut Marked) -> u8 {
    // SAFETY: each pointer and length are one slice's, and no slice is another.
    unsafe {
        juleyomu_published_depth_rates(
            of.depths.as_ptr(),
            of.depths.len(),
            of.projected.numbers.as_ptr(),
            of.projected.numbers.len(),
            of.projected.marks.as_ptr(),
            of.projected.marks.len(),
            of.frontier.numbers.as_ptr(),
            of.frontier.numbers.len(),
            of.frontier.marks.as_ptr(),
            of.frontier.marks.len(),
            of.history.numbers.as_ptr(),
            of.history.numbers.len(),
            of.history.marks.as_ptr(),
            of.history.marks.len(),
            of.confirm,
            of.alpha,
            out.numbers.as_mut_ptr(),
            out.numbers.len(),
            out.marks.as_mut_ptr(),
            out.marks.len(),
        )
    }
}

pub fn fee_at_target_sat_kvb(depths: &[u32], rates: &Marked, target: u32) -> RateFields {
    let Marked { numbers, marks } = rates;
    // SAFETY: each pointer and length are one slice's.
    unsafe {
        juleyomu_fee_at_target_sat_kvb(
            depths.as_ptr(),
            depths.len(),
            numbers.as_ptr(),
            numbers.len(),
            marks.as_ptr(),
            marks.len(),
            target,
        )
    }
}

pub fn looked_up(of: &Lookup) -> RateFields {
    fee_at_target_sat_kvb(&of.depths, &of.rates, of.target)
}
