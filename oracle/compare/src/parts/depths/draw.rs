//! The inputs of part `depths`: boundary values, and random loops and lookups.

use super::lists::{Lookup, Loop, Marked, MarkedRate};
use crate::rng::Rng;
use patched_mempool::fee_est as patched;

pub const RATES: [u64; 6] = [0, 1, 1 << 50, (1 << 50) + 1, 1 << 53, u64::MAX];
pub const DEPTHS: [u32; 9] = [0, 1, 5, 6, 7, 4_249, 4_250, 4_251, u32::MAX];
/// The largest rate of demand 3.
pub const BOUND: u64 = 1 << 50;

/// No number, zeros, both ends of the range and what lies just beside them.
pub fn shares() -> Vec<f64> {
    let mut shares = vec![
        f64::NAN,
        f64::INFINITY,
        -f64::INFINITY,
        -0.0,
        0.0,
        0.5,
        1e300,
    ];
    for edge in [0.0, 1.0] {
        shares.extend(crate::values::around_float(edge, 2));
    }
    shares.extend([0.99, 1e-300, -1.0, f64::MIN_POSITIVE, f64::MAX]);
    shares
}

/// The rates of the boundary, and a missing one over a number that is not to be read.
pub fn marked_rates() -> Vec<MarkedRate> {
    let there = RATES.map(|rate| MarkedRate { mark: 1, rate });
    let missing = MarkedRate { mark: 0, rate: 7 };
    there.into_iter().chain([missing]).collect()
}

pub fn draw_share(rng: &mut Rng) -> f64 {
    match rng.below(8) {
        0..2 => rng.pick(&shares()),
        2 => rng.any_f64(),
        3 => rng.f64_of_exponent(-60, 4),
        _ => rng.fraction(),
    }
}

pub fn draw_depth(rng: &mut Rng) -> u32 {
    match rng.below(8) {
        0..2 => rng.pick(&DEPTHS),
        2 => rng.of_bits(32) as u32,
        3 => rng.below(5_000) as u32,
        4 => rng.below(200) as u32,
        _ => rng.below(20) as u32,
    }
}

/// Rates as they come, those about the boundary values, and any.
pub fn draw_rate(rng: &mut Rng) -> u64 {
    match rng.below(8) {
        0 => rng.pick(&RATES),
        1 => rng.of_any_length(),
        2 => BOUND - 2 + rng.below(5),
        3 => rng.below(8),
        4 => rng.below(BOUND + 1),
        _ => 100 + rng.below(1_000_000),
    }
}

/// At most 2^50, half of them near it.
pub fn draw_bounded_rate(rng: &mut Rng) -> u64 {
    match rng.below(8) {
        0..3 => BOUND - rng.below(1_000),
        3..5 => rng.below(BOUND + 1),
        _ => draw_rate(rng).min(BOUND),
    }
}

pub fn draw_marked(rng: &mut Rng) -> MarkedRate {
    MarkedRate {
        mark: u8::from(rng.below(4) > 0),
        rate: draw_rate(rng),
    }
}

/// Of `there` in 8 places a rate is there; a missing one has any number.
fn draw_rates(rng: &mut Rng, length: usize, there: u64, draw: fn(&mut Rng) -> u64) -> Marked {
    let mark = |rng: &mut Rng| u8::from(rng.below(8) < there);
    let rates = (0..length).map(|_| match mark(rng) {
        1 => (draw(rng), 1),
        mark => (rng.of_any_length(), mark),
    });
    let (numbers, marks) = rates.collect::<Vec<_>>().into_iter().unzip();
    Marked { numbers, marks }
}

/// Few to 64, in ascending order, some of them equal.
pub fn draw_depths(rng: &mut Rng) -> Vec<u32> {
    let length = match rng.below(8) {
        0 => rng.below(65),
        1..4 => rng.below(5),
        _ => rng.below(14),
    };
    let mut depths: Vec<u32> = (0..length).map(|_| draw_depth(rng)).collect();
    depths.sort_unstable();
    depths
}

/// Lists of one length, marks of 0 and 1, ascending depths.
fn draw_loop_of(rng: &mut Rng, draw: fn(&mut Rng) -> u64) -> Loop {
    let depths = draw_depths(rng);
    let length = depths.len();
    let there = rng.pick(&[0, 1, 4, 6, 8, 8]);
    let [projected, frontier, history] = [(); 3].map(|_| draw_rates(rng, length, there, draw));
    Loop {
        depths,
        projected,
        frontier,
        history,
        confirm: MarkedRate {
            mark: u8::from(rng.below(2) > 0),
            rate: draw(rng),
        },
        alpha: draw_share(rng),
        // What stood in the output lists before.
        out: Marked {
            numbers: (0..length).map(|_| rng.word()).collect(),
            marks: (0..length).map(|_| rng.of_bits(8) as u8).collect(),
        },
    }
}

pub fn draw_loop(rng: &mut Rng) -> Loop {
    draw_loop_of(rng, draw_rate)
}

/// Within the premises of demand 3.
pub fn draw_bounded_loop(rng: &mut Rng) -> Loop {
    let mut of = draw_loop_of(rng, draw_bounded_rate);
    // Shares whose blends are not whole numbers, more often.
    if rng.below(2) == 0 {
        of.alpha = rng.fraction();
    }
    of
}

/// One element more or less, or none.
fn resize<T: Clone>(rng: &mut Rng, list: &mut Vec<T>, more: T) {
    match rng.below(3) {
        0 => list.clear(),
        1 => drop(list.pop()),
        _ => list.push(more),
    }
}

fn spoil_mark(rng: &mut Rng, marks: &mut [u8]) {
    if !marks.is_empty() {
        let place = rng.below(marks.len() as u64) as usize;
        marks[place] = 2 + rng.below(254) as u8;
    }
}

fn spoil_depths(rng: &mut Rng, depths: &mut [u32]) {
    if depths.len() > 1 {
        let place = rng.below(depths.len() as u64 - 1) as usize;
        depths.swap(place, place + 1);
    }
}

/// A loop with one list of another length, a mark that is none, a depth that falls, or several.
pub fn draw_spoiled_loop(rng: &mut Rng) -> Loop {
    let mut of = draw_loop(rng);
    let kinds = 1 + rng.below(7);
    if kinds & 1 > 0 {
        let Loop {
            projected,
            frontier,
            history,
            out,
            ..
        } = &mut of;
        match rng.below(9) {
            0 => resize(rng, &mut of.depths, u32::MAX),
            place => {
                let pairs = [projected, frontier, history, out];
                let pair = pairs.into_iter().nth(place as usize / 2 % 4);
                let pair = pair.expect("one of four");
                match place % 2 {
                    0 => resize(rng, &mut pair.numbers, 7),
                    _ => resize(rng, &mut pair.marks, 1),
                }
            }
        }
    }
    if kinds & 2 > 0 {
        let marks = rng.below(3) as usize;
        let pairs = [&mut of.projected, &mut of.frontier, &mut of.history];
        let pair = pairs.into_iter().nth(marks).expect("one of three");
        spoil_mark(rng, &mut pair.marks);
    }
    if kinds & 4 > 0 {
        spoil_depths(rng, &mut of.depths);
    }
    of
}

/// Numbers with marks, as the hold pass takes them; at times of another length, or with another mark.
pub fn draw_hold(rng: &mut Rng) -> Marked {
    let length = rng.below(20) as usize;
    let there = rng.below(9);
    let mut rates = draw_rates(rng, length, there, draw_rate);
    if rng.below(8) == 0 {
        resize(rng, &mut rates.numbers, 7);
    }
    if rng.below(8) == 0 {
        spoil_mark(rng, &mut rates.marks);
    }
    rates
}

/// A target at a depth, beside it, or anywhere.
fn draw_target(rng: &mut Rng, depths: &[u32]) -> u32 {
    if depths.is_empty() || rng.below(4) == 0 {
        return draw_depth(rng);
    }
    let depth = rng.pick(depths);
    depth.wrapping_add(rng.below(3) as u32).wrapping_sub(1)
}

/// Rates in any order, at times in the order that the hold pass leaves.
pub fn draw_lookup(rng: &mut Rng) -> Lookup {
    let depths = draw_depths(rng);
    let there = rng.pick(&[0, 1, 4, 7, 8, 8]);
    let mut rates = draw_rates(rng, depths.len(), there, draw_rate);
    if rng.below(2) == 0 {
        let mut held = rates.rates();
        patched::hold_defined_then_monotone(&mut held);
        rates = rates.over(&held);
    }
    let target = draw_target(rng, &depths);
    Lookup {
        depths,
        rates,
        target,
    }
}

/// With another length, another mark or a falling depth, or several of them.
pub fn draw_spoiled_lookup(rng: &mut Rng) -> Lookup {
    let mut of = draw_lookup(rng);
    let kinds = 1 + rng.below(15);
    if kinds & 1 > 0 {
        resize(rng, &mut of.rates.numbers, 7);
    }
    if kinds & 2 > 0 {
        resize(rng, &mut of.depths, u32::MAX);
    }
    if kinds & 4 > 0 {
        spoil_mark(rng, &mut of.rates.marks);
    }
    if kinds & 8 > 0 {
        spoil_depths(rng, &mut of.depths);
    }
    of
}

pub type Ends = ((u32, u64), (u32, u64), u32);

/// Ends in any order, the target between them or not.
pub fn draw_ends(rng: &mut Rng) -> Ends {
    let (start, end) = (draw_depth(rng), draw_depth(rng));
    let target = match rng.below(4) {
        0 => draw_depth(rng),
        _ => {
            let (low, high) = (u64::from(start.min(end)), u64::from(start.max(end)));
            (low + rng.below(high - low + 1)) as u32
        }
    };
    ((start, draw_rate(rng)), (end, draw_rate(rng)), target)
}
