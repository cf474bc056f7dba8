//! Part `num`: what Rust's std supplied to the fee code, and the stand-ins for `exp` and `ln`.

use super::Part;
use crate::bench::{Bench, INPUTS, input, row};
use crate::check::{Function, Job, Plan};
use crate::replay::Replay;
use crate::rng::Rng;
use crate::values::{
    around_float, around_word, both_signs, boundary_words, corner_words, pairs, power,
    powers_around, special_floats, triples,
};
use crate::words::{Input, Word, Words, of_rank, rank};
use patched_mempool::fee_analog::ANALOG_BAND;
use patched_mempool::fee_est::BLEND_N0;
use patched_mempool::stand_in;
use std::f64::consts::{LN_2, SQRT_2};

/// A u128 as two words.
#[repr(C)]
#[derive(Clone, Copy)]
pub struct Wide {
    hi: u64,
    lo: u64,
}

#[repr(C)]
#[derive(Clone, Copy)]
pub struct WideDivision {
    quotient: Wide,
    remainder: u64,
}

/// The functions of the Rattle crate `exports`. Each takes and returns plain numbers and touches no
/// memory, so that any call is safe.
mod rattle {
    use super::{Wide, WideDivision};

    unsafe extern "C" {
        #[link_name = "juleyomu_saturating_add"]
        pub safe fn saturating_add(a: u64, b: u64) -> u64;
        #[link_name = "juleyomu_saturating_sub"]
        pub safe fn saturating_sub(a: u64, b: u64) -> u64;
        #[link_name = "juleyomu_saturating_mul"]
        pub safe fn saturating_mul(a: u64, b: u64) -> u64;
        #[link_name = "juleyomu_least"]
        pub safe fn least(a: u64, b: u64) -> u64;
        #[link_name = "juleyomu_greatest"]
        pub safe fn greatest(a: u64, b: u64) -> u64;
        #[link_name = "juleyomu_wide_product"]
        pub safe fn wide_product(a: u64, b: u64) -> Wide;
        #[link_name = "juleyomu_wide_sum"]
        pub safe fn wide_sum(a: Wide, b: Wide) -> Wide;
        #[link_name = "juleyomu_wide_divide"]
        pub safe fn wide_divide(n: Wide, d: u64) -> WideDivision;
        #[link_name = "juleyomu_f64_from_u64"]
        pub safe fn f64_from_u64(n: u64) -> f64;
        #[link_name = "juleyomu_f64_to_u64"]
        pub safe fn f64_to_u64(x: f64) -> u64;
        #[link_name = "juleyomu_round_to_u64"]
        pub safe fn round_to_u64(x: f64) -> u64;
        #[link_name = "juleyomu_is_finite"]
        pub safe fn is_finite(x: f64) -> bool;
        #[link_name = "juleyomu_max"]
        pub safe fn max(x: f64, y: f64) -> f64;
        #[link_name = "juleyomu_clamp"]
        pub safe fn clamp(x: f64, lo: f64, hi: f64) -> f64;
        #[link_name = "juleyomu_floor"]
        pub safe fn floor(x: f64) -> f64;
        #[link_name = "juleyomu_ceil"]
        pub safe fn ceil(x: f64) -> f64;
        #[link_name = "juleyomu_exp"]
        pub safe fn exp(x: f64) -> f64;
        #[link_name = "juleyomu_ln"]
        pub safe fn ln(n: u64) -> f64;
        #[link_name = "juleyomu_ln_1_25"]
        pub safe fn ln_1_25() -> f64;
    }
}

/// The Rust behind the same calls: never inlined, so that both sides of a timing pay for a call.
mod rust {
    use super::{ANALOG_BAND, Wide, WideDivision, stand_in};

    #[inline(never)]
    pub extern "C" fn saturating_add(a: u64, b: u64) -> u64 {
        a.saturating_add(b)
    }

    #[inline(never)]
    pub extern "C" fn saturating_sub(a: u64, b: u64) -> u64 {
        a.saturating_sub(b)
    }

    #[inline(never)]
    pub extern "C" fn saturating_mul(a: u64, b: u64) -> u64 {
        a.saturating_mul(b)
    }

    #[inline(never)]
    pub extern "C" fn least(a: u64, b: u64) -> u64 {
        a.min(b)
    }

    #[inline(never)]
    pub extern "C" fn greatest(a: u64, b: u64) -> u64 {
        a.max(b)
    }

    #[inline(never)]
    pub extern "C" fn wide_product(a: u64, b: u64) -> Wide {
        Wide::from(u128::from(a) * u128::from(b))
    }

    #[inline(never)]
    pub extern "C" fn wide_sum(a: Wide, b: Wide) -> Wide {
        Wide::from(u128::from(a).wrapping_add(u128::from(b)))
    }

    /// Rust's division panics where d is 0; the port answers 0 and 0.
    #[inline(never)]
    pub extern "C" fn wide_divide(n: Wide, d: u64) -> WideDivision {
        let (n, d) = (u128::from(n), u128::from(d));
        WideDivision {
            quotient: Wide::from(n.checked_div(d).unwrap_or(0)),
            remainder: n.checked_rem(d).unwrap_or(0) as u64,
        }
    }

    #[inline(never)]
    pub extern "C" fn f64_from_u64(n: u64) -> f64 {
        n as f64
    }

    #[inline(never)]
    pub extern "C" fn f64_to_u64(x: f64) -> u64 {
        x as u64
    }

    #[inline(never)]
    pub extern "C" fn round_to_u64(x: f64) -> u64 {
        x.round() as u64
    }

    #[inline(never)]
    pub extern "C" fn is_finite(x: f64) -> bool {
        x.is_finite()
    }

    #[inline(never)]
    pub extern "C" fn max(x: f64, y: f64) -> f64 {
        x.max(y)
    }

    #[inline(never)]
    pub extern "C" fn clamp(x: f64, lo: f64, hi: f64) -> f64 {
        x.clamp(lo, hi)
    }

    #[inline(never)]
    pub extern "C" fn floor(x: f64) -> f64 {
        x.floor()
    }

    #[inline(never)]
    pub extern "C" fn ceil(x: f64) -> f64 {
        x.ceil()
    }

    #[inline(never)]
    pub extern "C" fn exp(x: f64) -> f64 {
        stand_in::exp(x)
    }

    #[inline(never)]
    pub extern "C" fn ln(n: u64) -> f64 {
        stand_in::ln(n as f64)
    }

    #[inline(never)]
    pub extern "C" fn ln_1_25() -> f64 {
        stand_in::ln(ANALOG_BAND)
    }
}

impl From<u128> for Wide {
    fn from(n: u128) -> Wide {
        Wide {
            hi: (n >> 64) as u64,
            lo: n as u64,
        }
    }
}

impl From<Wide> for u128 {
    fn from(n: Wide) -> u128 {
        u128::from(n.hi) << 64 | u128::from(n.lo)
    }
}

impl Words for Wide {
    fn write(&self, out: &mut Vec<Word>) {
        (self.hi, self.lo).write(out);
    }
}

impl Input for Wide {
    fn smaller(&self) -> Vec<Wide> {
        let pairs = (self.hi, self.lo).smaller();
        pairs.into_iter().map(|(hi, lo)| Wide { hi, lo }).collect()
    }
}

impl Words for WideDivision {
    fn write(&self, out: &mut Vec<Word>) {
        self.quotient.write(out);
        self.remainder.write(out);
    }
}

/// A call as a closure on one input.
macro_rules! call {
    ($side:ident::$name:ident($($arg:ident),*)) => {
        |&input!($($arg),*)| $side::$name($($arg),*)
    };
}

/// A function that has the same name and arguments on both sides.
macro_rules! function {
    ($name:ident $args:tt) => {
        Function::new(stringify!($name), call!(rattle::$name $args), call!(rust::$name $args))
    };
}

const SATURATING_ADD: Function<(u64, u64), u64> = function!(saturating_add(a, b));
const SATURATING_SUB: Function<(u64, u64), u64> = function!(saturating_sub(a, b));
const SATURATING_MUL: Function<(u64, u64), u64> = function!(saturating_mul(a, b));
const LEAST: Function<(u64, u64), u64> = function!(least(a, b));
const GREATEST: Function<(u64, u64), u64> = function!(greatest(a, b));
const WIDE_PRODUCT: Function<(u64, u64), Wide> = function!(wide_product(a, b));
const WIDE_SUM: Function<(Wide, Wide), Wide> = function!(wide_sum(a, b));
const WIDE_DIVIDE: Function<(Wide, u64), WideDivision> = function!(wide_divide(n, d));
const F64_FROM_U64: Function<u64, f64> = function!(f64_from_u64(n));
const F64_TO_U64: Function<f64, u64> = function!(f64_to_u64(x));
const ROUND_TO_U64: Function<f64, u64> = function!(round_to_u64(x));
const IS_FINITE: Function<f64, bool> = function!(is_finite(x));
const MAX: Function<(f64, f64), f64> = Function::new("max", call!(rattle::max(x, y)), |&(x, y)| {
    first_of_equals(x, rust::max(x, y))
});
/// Rust's `clamp` panics unless lo is at most hi.
const CLAMP: Function<(f64, f64, f64), f64> =
    Function::new("clamp", call!(rattle::clamp(x, lo, hi)), |&(x, lo, hi)| {
        first_of_equals(x, rust::clamp(x, lo, hi))
    })
    .within(|&(_, lo, hi)| lo <= hi);
const FLOOR: Function<f64, f64> = function!(floor(x));
const CEIL: Function<f64, f64> = function!(ceil(x));
const EXP: Function<f64, f64> = function!(exp(x)).upstream(|x| x.exp(), |&x| exp_region(x));
const LN: Function<u64, f64> = function!(ln(n)).upstream(|&n| (n as f64).ln(), |_| "whole numbers");
const LN_1_25: Function<(), f64> =
    function!(ln_1_25()).upstream(|_| ANALOG_BAND.ln(), |_| "constant");

/// The exponential as the estimator calls it.
const BLEND_WEIGHT: Function<u32, f64> = Function::new(
    "blend_weight",
    |&n| rattle::exp(blend_argument(n)),
    |&n| patched_mempool::fee_est::blend_weight(n),
)
.upstream(
    |&n| upstream_mempool::fee_est::blend_weight(n),
    |&n| exp_region(blend_argument(n)),
);

/// The logarithm as the pair windows call it.
const LN_RATE: Function<u64, f64> = Function::new(
    "ln_rate",
    |&rate: &u64| rattle::ln(rate.max(1)),
    |&rate| patched_mempool::fee_analog::ln_rate(rate),
)
.upstream(
    |&rate| upstream_mempool::fee_analog::ln_rate(rate),
    |_| "whole numbers",
);

/// Rust leaves the sign of a zero that `max` and `clamp` return open where zeros of both signs are
/// among the arguments. The port returns the first argument where the result equals it.
fn first_of_equals(x: f64, result: f64) -> f64 {
    if result == x { x } else { result }
}

fn blend_argument(n_blocks: u32) -> f64 {
    -(f64::from(n_blocks.max(1)) - 1.0) / BLEND_N0
}

fn exp_region(x: f64) -> &'static str {
    if x < -708.0 {
        "below -708"
    } else if x > 709.0 {
        "above 709"
    } else if x.is_nan() {
        "NaN"
    } else {
        "-708 to 709"
    }
}

/// Two words: unrelated ones, and ones whose sum, difference or product is near an end of the range.
fn draw_words(rng: &mut Rng) -> (u64, u64) {
    let a = rng.of_any_length();
    let b = match rng.below(4) {
        0 => !a,
        1 => a,
        2 => u64::MAX / a.max(1),
        _ => return (a, rng.of_any_length()),
    };
    (a, b.wrapping_add(rng.below(5)).wrapping_sub(2))
}

/// A number of `bits` binary digits at most (128 at most).
fn wide_of_bits(rng: &mut Rng, bits: u32) -> Wide {
    let all = u128::from(rng.word()) << 64 | u128::from(rng.word());
    Wide::from(all.checked_shr(128 - bits).unwrap_or(0))
}

fn draw_wide(rng: &mut Rng) -> Wide {
    let bits = rng.below(129) as u32;
    wide_of_bits(rng, bits)
}

fn draw_wides(rng: &mut Rng) -> (Wide, Wide) {
    let a = draw_wide(rng);
    if rng.below(4) > 0 {
        return (a, draw_wide(rng));
    }
    let near = (!u128::from(a)).wrapping_add(u128::from(rng.below(5)));
    (a, Wide::from(near.wrapping_sub(2)))
}

/// Any dividend, or one next to a multiple of the divisor.
fn draw_division(rng: &mut Rng) -> (Wide, u64) {
    let d = rng.of_any_length();
    let n = u128::from(draw_wide(rng));
    if rng.below(2) == 0 {
        return (Wide::from(n), d);
    }
    let multiple = n - n.checked_rem(u128::from(d)).unwrap_or(0);
    let near = multiple.wrapping_add(u128::from(rng.below(3)));
    (Wide::from(near.wrapping_sub(1)), d)
}

/// A word near the middle between two neighbouring floats, or any.
fn draw_from(rng: &mut Rng) -> u64 {
    if rng.below(2) == 0 {
        return rng.of_any_length();
    }
    let spare = 1 + rng.below(11) as u32;
    let middle = (rng.of_bits(53) | 1 << 52) << spare | 1 << (spare - 1);
    middle.wrapping_add(rng.below(3)).wrapping_sub(1)
}

/// A float where casts and rounding have work to do: near a half, near a whole number, or anywhere
/// from 2^-3 to 2^66.
fn draw_rounded(rng: &mut Rng) -> f64 {
    if rng.below(2) == 0 {
        return rng.f64_of_exponent(-3, 66);
    }
    let bits = rng.below(53) as u32;
    let halves = rng.of_bits(bits) as f64 / 2.0;
    let near = of_rank(rank(halves) + rng.below(5) as i64 - 2);
    if rng.below(2) == 0 { near } else { -near }
}

/// An argument of the exponential whose result is neither 0 nor infinite, or a little outside.
fn draw_exponent(rng: &mut Rng) -> f64 {
    if rng.below(2) == 0 {
        rng.fraction() * 1456.0 - 746.0
    } else {
        rng.f64_of_exponent(-60, 10)
    }
}

fn draw_floats(rng: &mut Rng) -> (f64, f64) {
    let x = rng.any_f64();
    match rng.below(4) {
        0 => (x, -x),
        1 => (x, f64::from_bits(x.to_bits() ^ rng.below(4))),
        2 => (rng.f64_of_exponent(-3, 4), rng.f64_of_exponent(-3, 4)),
        _ => (x, rng.any_f64()),
    }
}

fn draw_clamp(rng: &mut Rng) -> (f64, f64, f64) {
    let (lo, hi) = draw_floats(rng);
    let x = match rng.below(4) {
        0 => lo,
        1 => hi,
        2 => rng.f64_of_exponent(-3, 4),
        _ => rng.any_f64(),
    };
    if lo <= hi { (x, lo, hi) } else { (x, hi, lo) }
}

/// The whole numbers and halves to 2^13 and those next to each power of two, with neighbours.
fn whole_and_half() -> Vec<f64> {
    let small = (0..=1 << 14).map(|n| f64::from(n) / 2.0);
    let large = (13..53).flat_map(|k| (-4..=4).map(move |n| power(k) + f64::from(n) / 2.0));
    both_signs(small.chain(large).flat_map(|x| around_float(x, 2))).collect()
}

/// Where the exponential changes its case, its power of two, or its sign.
fn exp_boundaries() -> Vec<f64> {
    // The arguments between which k is rounded up and down.
    let halves = (-1022..=1023).flat_map(|k| around_float((f64::from(k) + 0.5) * LN_2, 16));
    let ends = [-708.0, 709.0]
        .into_iter()
        .flat_map(|end| around_float(end, 4096));
    let others = [
        -746.0, -745.2, -745.1, -709.0, -708.4, -708.3, 709.7, 709.8, 710.0,
    ];
    special_floats()
        .into_iter()
        .chain(ends)
        .chain(halves)
        .chain(others)
        .collect()
}

/// Where the logarithm's m is near SQRT_2, or k changes.
fn ln_boundaries() -> Vec<u64> {
    let roots = (1..64).map(|k| (SQRT_2 * power(k)) as u64);
    let near_roots = roots.flat_map(|root| around_word(root, 2048));
    let near_powers = (22..64).flat_map(|k| around_word(1 << k, 2048));
    let last = around_word(u64::MAX, 2048);
    near_roots.chain(near_powers).chain(last).collect()
}

fn wides(words: &[u64]) -> Vec<Wide> {
    let pairs = pairs(words, words);
    pairs.into_iter().map(|(hi, lo)| Wide { hi, lo }).collect()
}

/// Words around each power of two, and around the middle between two neighbouring floats.
fn cast_words() -> Vec<u64> {
    let middles = (54..=64).flat_map(|bits| {
        let unit = 1_u64 << (bits - 53);
        let first = 1_u64 << (bits - 1);
        let last = first - unit + first;
        [first, first + unit, last - unit, last].map(|float| float + unit / 2)
    });
    let powers = (0..64).map(|k| 1_u64 << k);
    powers
        .chain(middles)
        .chain([0, u64::MAX])
        .flat_map(|word| around_word(word, 16))
        .collect()
}

/// The functions of two words with one word as result.
const WORD_FUNCTIONS: [Function<(u64, u64), u64>; 5] = [
    SATURATING_ADD,
    SATURATING_SUB,
    SATURATING_MUL,
    LEAST,
    GREATEST,
];

fn word_jobs(some: u64) -> Vec<Job> {
    let words = boundary_words();
    let corners = corner_words();
    let corner_wides = wides(&corners);
    let mut jobs = Vec::new();
    for function in WORD_FUNCTIONS {
        jobs.push(Job::over(function, pairs(&words, &words)));
        jobs.push(Job::random(function, some, draw_words));
    }
    jobs.push(Job::over(WIDE_PRODUCT, pairs(&words, &words)));
    jobs.push(Job::random(WIDE_PRODUCT, some, draw_words));
    jobs.push(Job::over(WIDE_SUM, pairs(&corner_wides, &corner_wides)));
    jobs.push(Job::random(WIDE_SUM, some, draw_wides));
    jobs.push(Job::over(WIDE_DIVIDE, pairs(&corner_wides, &words)));
    jobs.push(Job::over(WIDE_DIVIDE, pairs(&wides(&words), &corners)));
    jobs.push(Job::random(WIDE_DIVIDE, some, draw_division));
    jobs
}

fn float_jobs(some: u64) -> Vec<Job> {
    let special = special_floats();
    let mut jobs = vec![
        Job::over(F64_FROM_U64, (0..1_u32 << 16).map(u64::from)),
        Job::over(F64_FROM_U64, cast_words()),
        Job::random(F64_FROM_U64, some, draw_from),
    ];
    jobs.extend(rounding_jobs(F64_TO_U64, some));
    jobs.extend(rounding_jobs(ROUND_TO_U64, some));
    jobs.extend(rounding_jobs(FLOOR, some));
    jobs.extend(rounding_jobs(CEIL, some));
    jobs.push(Job::over(IS_FINITE, special.clone()));
    jobs.push(Job::over(IS_FINITE, powers_around(2)));
    jobs.push(Job::random(IS_FINITE, some, Rng::any_f64));
    jobs.push(Job::over(MAX, pairs(&special, &special)));
    jobs.push(Job::random(MAX, some, draw_floats));
    jobs.push(Job::over(CLAMP, triples(&special, &special, &special)));
    jobs.push(Job::over(CLAMP, triples(&powers_around(2), &[0.0], &[1.0])));
    jobs.push(Job::random(CLAMP, some, draw_clamp));
    jobs
}

fn rounding_jobs<A: Words + 'static>(function: Function<f64, A>, some: u64) -> [Job; 5] {
    [
        Job::over(function, special_floats()),
        Job::over(function, powers_around(64)),
        Job::over(function, whole_and_half()),
        Job::random(function, some, draw_rounded),
        Job::random(function, some, Rng::any_f64),
    ]
}

fn stand_in_jobs(many: u64) -> Vec<Job> {
    vec![
        Job::over(EXP, exp_boundaries()),
        Job::over(EXP, powers_around(64)),
        Job::random(EXP, many, Rng::any_f64),
        Job::random(EXP, many, draw_exponent),
        Job::over(BLEND_WEIGHT, 0..5_001),
        Job::over(BLEND_WEIGHT, [1 << 31, u32::MAX - 1, u32::MAX]),
        Job::over(LN, (0..(1_u32 << 22) + 1).map(u64::from)),
        Job::over(LN, ln_boundaries()),
        Job::random(LN, many, Rng::of_any_length),
        Job::over(LN_1_25, [()]),
        Job::over(LN_RATE, (0..1_u32 << 16).map(u64::from)),
        Job::over(LN_RATE, boundary_words()),
    ]
}

fn ask_words(replay: &mut Replay) {
    let words = [
        (0, 0),
        (0, 1),
        (1, 0),
        (1, u64::MAX),
        (u64::MAX, 1),
        (u64::MAX, u64::MAX),
        (1 << 63, 1 << 63),
        ((1 << 63) - 1, 1 << 63),
        (1 << 32, 1 << 32),
        ((1 << 32) - 1, (1 << 32) + 1),
        (3, u64::MAX / 3),
        (3, u64::MAX / 3 + 1),
    ];
    for function in WORD_FUNCTIONS {
        replay.ask(&function, words);
        replay.ask_random(&function, 8, draw_words);
    }
    replay.ask(&WIDE_PRODUCT, words);
    replay.ask_random(&WIDE_PRODUCT, 8, draw_words);
    let wides = wides(&[0, 1, u64::MAX]);
    replay.ask(&WIDE_SUM, pairs(&wides, &[wides[0], wides[1], wides[8]]));
    replay.ask_random(&WIDE_SUM, 8, draw_wides);
    replay.ask(&WIDE_DIVIDE, pairs(&wides, &[0, 1, 1 << 63, u64::MAX]));
    replay.ask_random(&WIDE_DIVIDE, 16, draw_division);
}

fn ask_floats(replay: &mut Replay) {
    replay.ask(&F64_FROM_U64, corner_words());
    replay.ask_random(&F64_FROM_U64, 16, draw_from);
    for function in [F64_TO_U64, ROUND_TO_U64] {
        replay.ask(&function, special_floats());
        replay.ask_random(&function, 8, draw_rounded);
    }
    // From 2^53 on every float is whole.
    let small = special_floats()
        .into_iter()
        .filter(|x| x.abs() <= power(53));
    let ends = [f64::INFINITY, f64::NEG_INFINITY, f64::NAN];
    for function in [FLOOR, CEIL] {
        replay.ask(&function, small.clone().chain(ends));
        replay.ask_random(&function, 8, draw_rounded);
    }
    replay.ask(&IS_FINITE, both_signs([0.0, of_rank(1), 1.0, f64::MAX]));
    replay.ask(&IS_FINITE, ends);
    let compared = [0.0, -0.0, 1.0, f64::INFINITY, f64::NEG_INFINITY, f64::NAN];
    replay.ask(&MAX, pairs(&compared, &compared));
    replay.ask_random(&MAX, 8, draw_floats);
    let near_one = around_float(1.0, 1).chain([of_rank(1), -of_rank(1), 0.5]);
    let shares: Vec<f64> = near_one.chain(compared).collect();
    replay.ask(&CLAMP, triples(&shares, &[0.0], &[1.0]));
    replay.ask(&CLAMP, triples(&compared, &compared, &[f64::INFINITY]));
    let zeros = [0.0, -0.0];
    replay.ask(&CLAMP, triples(&zeros, &[-1.0, 0.0, -0.0], &zeros));
    replay.ask_random(&CLAMP, 8, draw_clamp);
}

fn ask_stand_ins(replay: &mut Replay) {
    let depths = [1, 2, 3, 5, 6, 7, 144, 1008, 4249, 4250];
    replay.ask(&EXP, special_floats());
    replay.ask(&EXP, around_float(-708.0, 2));
    replay.ask(&EXP, around_float(709.0, 2));
    replay.ask(&EXP, depths.map(blend_argument));
    replay.ask_random(&EXP, 24, draw_exponent);
    replay.ask(&LN, 0..=12);
    // One term less, or a halving test at another number near SQRT_2, gives another float here.
    replay.ask(&LN, [362, 385, 5_809, 92_686, 741_427, 741_490]);
    replay.ask(&LN, corner_words());
    replay.ask_random(&LN, 24, Rng::of_any_length);
    replay.ask(&LN_1_25, [()]);
}

fn bench_inputs<I>(draw: fn(&mut Rng) -> I) -> Vec<I> {
    let mut rng = Rng::new(1, "bench num");
    (0..INPUTS).map(|_| draw(&mut rng)).collect()
}

pub struct Num;

impl Part for Num {
    fn name(&self) -> &'static str {
        "num"
    }

    fn jobs(&self, plan: &Plan) -> Vec<Job> {
        let mut jobs = word_jobs(plan.scaled(1_000_000));
        jobs.extend(float_jobs(plan.scaled(1_000_000)));
        jobs.extend(stand_in_jobs(plan.scaled(10_000_000)));
        jobs
    }

    fn replay(&self, replay: &mut Replay) {
        ask_words(replay);
        ask_floats(replay);
        ask_stand_ins(replay);
    }

    fn bench(&self, bench: &mut Bench) {
        let words = bench_inputs(draw_words);
        row!(bench, &words, saturating_add(a, b));
        row!(bench, &words, saturating_sub(a, b));
        row!(bench, &words, saturating_mul(a, b));
        row!(bench, &words, least(a, b));
        row!(bench, &words, greatest(a, b));
        row!(bench, &words, wide_product(a, b));
        row!(bench, &bench_inputs(draw_wides), wide_sum(a, b));
        // The straight line between two depths, and the largest there is.
        let line = bench_inputs(|rng| (wide_of_bits(rng, 96), rng.of_bits(32)));
        row!(bench, &line, "wide_divide_96_by_32", wide_divide(n, d));
        let full = bench_inputs(|rng| (wide_of_bits(rng, 128), rng.of_bits(64)));
        row!(bench, &full, "wide_divide_128_by_64", wide_divide(n, d));
        row!(bench, &bench_inputs(Rng::of_any_length), f64_from_u64(n));
        // Rates and weights: not negative, below 2^50.
        let rates = bench_inputs(|rng| rng.f64_of_exponent(-2, 50).abs());
        row!(bench, &rates, f64_to_u64(x));
        row!(bench, &rates, round_to_u64(x));
        row!(bench, &rates, is_finite(x));
        row!(bench, &bench_inputs(draw_floats), max(x, y));
        let shares = bench_inputs(|rng| (rng.f64_of_exponent(-3, 1), 0.0, 1.0));
        row!(bench, &shares, clamp(x, lo, hi));
        row!(bench, &rates, floor(x));
        row!(bench, &rates, ceil(x));
        let weights = bench_inputs(|rng| blend_argument(1 + rng.below(4249) as u32));
        row!(bench, &weights, exp(x), stand_in::exp);
        let hurdles = bench_inputs(|rng| 100 + rng.below(1_000_000));
        row!(bench, &hurdles, ln(n));
        row!(bench, &[(); INPUTS], ln_1_25());
    }
}
