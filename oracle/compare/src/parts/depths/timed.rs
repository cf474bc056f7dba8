//! The functions of a depth, of lists of rates, the loop over depths, the lookup and the straight line,
//! timed beside the Rust.

use super::draw::Ends;
use super::lists::{Loop, Marked, MarkedRate, Rate};
use super::rattle;
use crate::bench::{Bench, INPUTS, row};
use crate::rng::Rng;
use patched_mempool::fee_est as patched;
use std::hint::black_box;

/// The tracked depths of a node, or as many as a program may be given.
fn bench_depths(count: u32) -> Vec<u32> {
    match count {
        11 => vec![1, 2, 3, 4, 6, 9, 12, 24, 72, 144, 1_008],
        _ => (1..=count).map(|place| 2 * place - 1).collect(),
    }
}

/// Rates as they come, one in eight missing.
fn bench_rates(rng: &mut Rng, count: u32) -> Marked {
    let pair = |_| (1_000 + rng.below(100_000), u8::from(rng.below(8) > 0));
    Marked::of_pairs((0..count).map(pair).collect())
}

fn bench_loop(rng: &mut Rng, count: u32) -> Loop {
    let depths = bench_depths(count);
    let mut list = || bench_rates(rng, count);
    let (projected, frontier, history, out) = (list(), list(), list(), list());
    Loop {
        depths,
        projected,
        frontier,
        history,
        confirm: Some(20_000).into(),
        alpha: 0.7,
        out,
    }
}

/// The Rust as it is timed: never inlined, so that both sides pay for a call.
mod rust {
    use super::{Rate, patched};

    pub struct Lists {
        pub depths: Vec<u32>,
        pub projected: Vec<Rate>,
        pub frontier: Vec<Rate>,
        pub history: Vec<Rate>,
        pub confirm: Rate,
        pub alpha: f64,
    }

    /// The loop in the Rust's own shape, into a list of the caller's.
    #[inline(never)]
    pub fn loop_over(of: &Lists, out: &mut [Rate]) {
        let lists = of.projected.iter().zip(&of.frontier).zip(&of.history);
        let rows = of.depths.iter().zip(lists).zip(out.iter_mut());
        for ((n, ((projected, frontier), hist)), out) in rows {
            let flow = patched::flow_for_depth(*projected, *frontier, *n);
            *out = patched::published_depth_rate(*n, of.alpha, flow, *frontier, *hist, of.confirm);
        }
        patched::hold_defined_then_monotone(out);
    }
}

impl From<&Loop> for rust::Lists {
    fn from(of: &Loop) -> rust::Lists {
        rust::Lists {
            depths: of.depths.clone(),
            projected: of.projected.rates(),
            frontier: of.frontier.rates(),
            history: of.history.rates(),
            confirm: of.confirm.rate(),
            alpha: of.alpha,
        }
    }
}

/// The loop over `count` depths, and lookups in what it left.
fn bench_lists(bench: &mut Bench, count: u32, rows: [&str; 2]) {
    let mut rng = Rng::new(1, "bench depths");
    let loops: Vec<Loop> = (0..INPUTS / 8 / count as usize)
        .map(|_| bench_loop(&mut rng, count))
        .collect();
    let inputs: Vec<(Loop, rust::Lists)> = loops
        .into_iter()
        .map(|of| (of.clone(), rust::Lists::from(&of)))
        .collect();
    let mut left = inputs[0].0.out.clone();
    let mut rates = vec![None; count as usize];
    bench.row(
        rows[0],
        &inputs,
        |(of, _)| {
            rattle::published_depth_rates(of, &mut left);
            black_box(&left).numbers[0]
        },
        |(_, lists)| {
            rust::loop_over(lists, &mut rates);
            black_box(&rates)[0]
        },
    );
    // What the loop leaves of the first input, whether or not its row was timed.
    rattle::published_depth_rates(&inputs[0].0, &mut left);
    rust::loop_over(&inputs[0].1, &mut rates);
    assert_eq!(left.rates(), rates, "both loops leave the same");
    let depths = bench_depths(count);
    let last = u64::from(depths[depths.len() - 1]);
    let targets: Vec<u32> = (0..INPUTS).map(|_| rng.below(last + 3) as u32).collect();
    let looked_up = black_box(patched::fee_at_target_sat_kvb as fn(&[u32], &[Rate], u32) -> Rate);
    bench.row(
        rows[1],
        &targets,
        |&target| rattle::fee_at_target_sat_kvb(&depths, &left, target),
        |&target| looked_up(&depths, &rates, target),
    );
}

/// A number of blocks as a quoter asks for it, a share or a meter's warmth, and rates as they come.
type Asked<S, R, const N: usize> = (u32, S, [R; N]);

/// The same for either side. The Rust's rates are its own `Option`s, so that it need not make them of marks.
type Forms<S, const N: usize> = (Vec<Asked<S, MarkedRate, N>>, Vec<Asked<S, Rate, N>>);

fn asked<S: Copy, const N: usize>(draw: fn(&mut Rng) -> S) -> Forms<S, N> {
    let mut rng = Rng::new(1, "bench depth");
    let mut one = |_| {
        let n = 1 + rng.below(1_100) as u32;
        let rates = bench_rates(&mut rng, N as u32);
        let rates: [Rate; N] = std::array::from_fn(|place| rates.rate(place));
        (n, draw(&mut rng), rates)
    };
    let theirs: Vec<Asked<S, Rate, N>> = (0..INPUTS).map(&mut one).collect();
    let marked = |(n, share, rates): &Asked<S, Rate, N>| (*n, *share, rates.map(MarkedRate::from));
    (theirs.iter().map(marked).collect(), theirs)
}

/// The functions of one depth.
fn depth_rows(bench: &mut Bench) {
    let mut rng = Rng::new(1, "bench blend weight");
    let blocks: Vec<u32> = (0..INPUTS).map(|_| 1 + rng.below(1_100) as u32).collect();
    row!(bench, &blocks, blend_weight(n), patched::blend_weight);
    let (ours, theirs) = asked(|_| ());
    let flow_for_depth = black_box(patched::flow_for_depth as fn(_, _, _) -> _);
    bench.row_of_forms(
        "flow_for_depth",
        (&ours, |&(n, (), [p, f])| rattle::flow_for_depth(p, f, n)),
        (&theirs, |&(n, (), [p, f])| flow_for_depth(p, f, n)),
    );
    let blend_sat_kvb = black_box(patched::blend_sat_kvb as fn(_, _, _) -> _);
    bench.row_of_forms(
        "blend_sat_kvb",
        (&ours, |&(n, (), [f, h])| rattle::blend_sat_kvb(f, h, n)),
        (&theirs, |&(n, (), [f, h])| blend_sat_kvb(f, h, n)),
    );
    let (ours, theirs) = asked(Rng::fraction);
    let warmup_blend = black_box(patched::warmup_blend as fn(_, _, _) -> _);
    bench.row_of_forms(
        "warmup_blend",
        (&ours, |&(_, a, [c, w])| rattle::warmup_blend(a, c, w)),
        (&theirs, |&(_, a, [c, w])| warmup_blend(a, c, w)),
    );
    let (ours, theirs) = asked(|rng| rng.below(2) == 0);
    let depth_rate_sat_kvb = black_box(patched::depth_rate_sat_kvb as fn(_, _, _, _, _) -> _);
    bench.row_of_forms(
        "depth_rate_sat_kvb",
        (&ours, |&(n, warm, [flow, frontier, hist])| {
            rattle::depth_rate_sat_kvb(n, warm, flow, frontier, hist)
        }),
        (&theirs, |&(n, warm, [flow, frontier, hist])| {
            depth_rate_sat_kvb(n, warm, flow, frontier, hist)
        }),
    );
    let (ours, theirs) = asked(Rng::fraction);
    let published_depth_rate =
        black_box(patched::published_depth_rate as fn(_, _, _, _, _, _) -> _);
    bench.row_of_forms(
        "published_depth_rate",
        (&ours, |&(n, alpha, [flow, frontier, hist, confirm])| {
            rattle::published_depth_rate(n, alpha, flow, frontier, hist, confirm)
        }),
        (&theirs, |&(n, alpha, [flow, frontier, hist, confirm])| {
            published_depth_rate(n, alpha, flow, frontier, hist, confirm)
        }),
    );
}

/// The two passes over 64 rates, each time over a copy. The Rust's hold pass allocates a list of the rates
/// that are there.
fn pass_rows(bench: &mut Bench) {
    let mut rng = Rng::new(1, "bench passes");
    let draw = |_| bench_rates(&mut rng, 64);
    let lists: Vec<Marked> = (0..INPUTS / 64).map(draw).collect();
    let numbers: Vec<Vec<u64>> = lists.iter().map(|list| list.numbers.clone()).collect();
    let enforce_monotone_desc = black_box(patched::enforce_monotone_desc as fn(&mut [u64]));
    bench.row_of_copies(
        "enforce_monotone_desc_64",
        (&numbers, |rates| rattle::enforce_monotone_desc(rates)),
        (&numbers, |rates| enforce_monotone_desc(rates)),
    );
    let rates: Vec<Vec<Rate>> = lists.iter().map(Marked::rates).collect();
    let hold_defined_then_monotone =
        black_box(patched::hold_defined_then_monotone as fn(&mut [Rate]));
    bench.row_of_copies(
        "hold_defined_then_monotone_64",
        (&lists, |rates| rattle::hold_defined_then_monotone(rates)),
        (&rates, |rates| hold_defined_then_monotone(rates)),
    );
}

pub fn bench(bench: &mut Bench) {
    depth_rows(bench);
    pass_rows(bench);
    let rows = ["published_depth_rates_11", "fee_at_target_sat_kvb_11"];
    bench_lists(bench, 11, rows);
    let rows = ["published_depth_rates_64", "fee_at_target_sat_kvb_64"];
    bench_lists(bench, 64, rows);
    let mut rng = Rng::new(1, "bench lerp");
    let ends: Vec<Ends> = (0..INPUTS)
        .map(|_| {
            let start = 1 + rng.below(100) as u32;
            let span = 1 + rng.below(100);
            let target = start + rng.below(span) as u32;
            let mut rate = || 1_000 + rng.below(100_000);
            ((start, rate()), (start + span as u32, rate()), target)
        })
        .collect();
    let lerp_sat_kvb = black_box(patched::lerp_sat_kvb as fn(_, _, _, _, _) -> _);
    bench.row(
        "lerp_sat_kvb",
        &ends,
        |&((d0, left), (d1, right), target)| rattle::lerp_sat_kvb(d0, left, d1, right, target),
        |&((d0, left), (d1, right), target)| lerp_sat_kvb(d0, left, d1, right, target),
    );
}
