//! The functions of the Rattle crate `exports`, and the memory that is lent to them.

use crate::lent::RateFields;

/// The port's state.
#[repr(C)]
#[derive(Clone, Copy, PartialEq)]
pub struct State {
    pub targets: [u32; 16],
    pub tracked: usize,
    pub capacity: usize,
    pub start: usize,
    pub count: usize,
}

/// The number of a refusal or 0, and the state.
#[repr(C)]
pub struct UpdateFields {
    pub refusal: u8,
    pub state: State,
}

/// The number of a refusal or 0, and the count or 0.
#[repr(C)]
pub struct CountFields {
    pub refusal: u8,
    pub count: usize,
}

/// Places beyond those asked for: lent too, but for `EXACT`.
const SLACK: usize = 3;

/// Memory for pair windows, with contents that no call leaves there.
#[derive(Clone)]
pub struct Memory {
    pub hurdles: Vec<u64>,
    pub befores: Vec<f64>,
    pub aheads: Vec<u64>,
    pub scratch: Vec<u64>,
}

/// Which list is lent one place shorter than asked for.
pub const HURDLES: u8 = 1;
pub const BEFORES: u8 = 2;
pub const AHEADS: u8 = 3;
pub const SCRATCH: u8 = 4;
/// No list is too short, and each is lent exactly as long as asked for.
pub const EXACT: u8 = 5;

/// What one call is lent.
pub struct Lists<'a> {
    pub hurdles: &'a mut [u64],
    pub befores: &'a mut [f64],
    pub aheads: &'a mut [u64],
    pub scratch: &'a mut [u64],
}

impl Memory {
    pub fn new(tracked: usize, capacity: usize) -> Memory {
        let words = |places: usize, salt: u64| {
            let word = move |place| (place as u64 ^ salt).wrapping_mul(0x9E37_79B9_7F4A_7C15) >> 2;
            (0..places + SLACK).map(word)
        };
        Memory {
            hurdles: words(capacity, 1 << 40).collect(),
            befores: words(tracked * capacity, 1 << 41)
                .map(f64::from_bits)
                .collect(),
            aheads: words(tracked * capacity, 1 << 42).collect(),
            scratch: words(capacity, 1 << 43).collect(),
        }
    }

    /// The list that `short` names one place shorter than windows of this size ask for, or every list
    /// exactly as long.
    pub fn lend(&mut self, short: u8, tracked: usize, capacity: usize) -> Lists<'_> {
        let length = |list: u8, held: usize, asked: usize| {
            if list == short {
                held.min(asked.saturating_sub(1))
            } else if short == EXACT {
                held.min(asked)
            } else {
                held
            }
        };
        let pairs = tracked.saturating_mul(capacity);
        let (hurdles, scratch) = (self.hurdles.len(), self.scratch.len());
        let (befores, aheads) = (self.befores.len(), self.aheads.len());
        Lists {
            hurdles: &mut self.hurdles[..length(HURDLES, hurdles, capacity)],
            befores: &mut self.befores[..length(BEFORES, befores, pairs)],
            aheads: &mut self.aheads[..length(AHEADS, aheads, pairs)],
            scratch: &mut self.scratch[..length(SCRATCH, scratch, capacity)],
        }
    }
}

unsafe extern "C" {
    #[link_name = "juleyomu_analog_band"]
    pub safe fn analog_band() -> f64;
    #[link_name = "juleyomu_historical_confidence_far"]
    pub safe fn historical_confidence_far() -> f64;
    #[link_name = "juleyomu_analog_lookback"]
    pub safe fn analog_lookback(n: u32) -> usize;
    #[link_name = "juleyomu_ln_rate"]
    pub safe fn ln_rate(rate: u64) -> f64;
    #[link_name = "juleyomu_windows_pop_back"]
    pub safe fn pop_back(state: State) -> UpdateFields;
    #[link_name = "juleyomu_windows_pop_front"]
    pub safe fn pop_front(state: State) -> UpdateFields;
    #[link_name = "juleyomu_windows_pairs"]
    pub safe fn pairs(state: State, n: u32) -> CountFields;
    fn juleyomu_lower_median(values: *const u64, values_len: usize) -> RateFields;
    fn juleyomu_log_quantile(
        outcomes: *mut u64,
        outcomes_len: usize,
        confidence: f64,
    ) -> RateFields;
    fn juleyomu_windows_new(
        targets: *const u32,
        targets_len: usize,
        capacity: usize,
        hurdles: *const u64,
        hurdles_len: usize,
        befores: *const f64,
        befores_len: usize,
        aheads: *const u64,
        aheads_len: usize,
    ) -> UpdateFields;
    fn juleyomu_windows_push_back(
        state: State,
        hurdle: u64,
        hurdles: *mut u64,
        hurdles_len: usize,
        befores: *mut f64,
        befores_len: usize,
        aheads: *mut u64,
        aheads_len: usize,
    ) -> UpdateFields;
    fn juleyomu_windows_push_front(
        state: State,
        hurdle: u64,
        hurdles: *mut u64,
        hurdles_len: usize,
        befores: *mut f64,
        befores_len: usize,
        aheads: *mut u64,
        aheads_len: usize,
    ) -> UpdateFields;
    fn juleyomu_windows_rebuild(
        state: State,
        from: *const u64,
        from_len: usize,
        hurdles: *mut u64,
        hurdles_len: usize,
        befores: *mut f64,
        befores_len: usize,
        aheads: *mut u64,
        aheads_len: usize,
    ) -> UpdateFields;
    fn juleyomu_windows_rate_sat_kvb(
        state: State,
        n: u32,
        confidence: f64,
        hurdles: *const u64,
        hurdles_len: usize,
        befores: *const f64,
        befores_len: usize,
        aheads: *const u64,
        aheads_len: usize,
        scratch: *mut u64,
        scratch_len: usize,
    ) -> RateFields;
}

pub fn lower_median(values: &[u64]) -> RateFields {
    // SAFETY: pointer and length are one slice's.
    unsafe { juleyomu_lower_median(values.as_ptr(), values.len()) }
}

pub fn log_quantile(outcomes: &mut [u64], confidence: f64) -> RateFields {
    // SAFETY: pointer and length are one slice's.
    unsafe { juleyomu_log_quantile(outcomes.as_mut_ptr(), outcomes.len(), confidence) }
}

// SAFETY of all below: each pointer and length are one slice's, and the slices do not overlap. The
// pointers come from unique slices, so that a write to a list that is only read would show; but for what a
// rebuild reads, which is compared with its copy.

pub fn new(targets: &mut [u32], capacity: usize, lent: &mut Lists) -> UpdateFields {
    unsafe {
        juleyomu_windows_new(
            targets.as_mut_ptr(),
            targets.len(),
            capacity,
            lent.hurdles.as_mut_ptr(),
            lent.hurdles.len(),
            lent.befores.as_mut_ptr(),
            lent.befores.len(),
            lent.aheads.as_mut_ptr(),
            lent.aheads.len(),
        )
    }
}

pub fn push_back(state: State, hurdle: u64, lent: &mut Lists) -> UpdateFields {
    unsafe {
        juleyomu_windows_push_back(
            state,
            hurdle,
            lent.hurdles.as_mut_ptr(),
            lent.hurdles.len(),
            lent.befores.as_mut_ptr(),
            lent.befores.len(),
            lent.aheads.as_mut_ptr(),
            lent.aheads.len(),
        )
    }
}

pub fn push_front(state: State, hurdle: u64, lent: &mut Lists) -> UpdateFields {
    unsafe {
        juleyomu_windows_push_front(
            state,
            hurdle,
            lent.hurdles.as_mut_ptr(),
            lent.hurdles.len(),
            lent.befores.as_mut_ptr(),
            lent.befores.len(),
            lent.aheads.as_mut_ptr(),
            lent.aheads.len(),
        )
    }
}

pub fn rebuild(state: State, from: &[u64], lent: &mut Lists) -> UpdateFields {
    unsafe {
        juleyomu_windows_rebuild(
            state,
            from.as_ptr(),
            from.len(),
            lent.hurdles.as_mut_ptr(),
            lent.hurdles.len(),
            lent.befores.as_mut_ptr(),
            lent.befores.len(),
            lent.aheads.as_mut_ptr(),
            lent.aheads.len(),
        )
    }
}

pub fn rate_sat_kvb(state: State, n: u32, confidence: f64, lent: &mut Lists) -> RateFields {
    unsafe {
        juleyomu_windows_rate_sat_kvb(
            state,
            n,
            confidence,
            lent.hurdles.as_mut_ptr(),
            lent.hurdles.len(),
            lent.befores.as_mut_ptr(),
            lent.befores.len(),
            lent.aheads.as_mut_ptr(),
            lent.aheads.len(),
            lent.scratch.as_mut_ptr(),
            lent.scratch.len(),
        )
    }
}
