//! Part `depths`: depth rates, the loop over depths, the hold pass and the lookup of a target, of
//! fee_est.rs. The Rust's loop over depths is not among its fee files: here it is the Rust's own
//! functions in the order that document 01 gives.
//!
//! The blend weight is the one place that a stand-in concerns. Beside the Rust, loops and lookups are
//! held to document 01's exact line (`line`).

mod draw;
mod line;
mod lists;
mod rattle;
mod timed;

use super::Part;
use crate::bench::Bench;
use crate::check::{Function, Job, Plan};
use crate::lent::{Lent, RateFields};
use crate::replay::Replay;
use crate::rng::Rng;
use crate::values::pairs;
use crate::words::Words;
use draw::{BOUND, DEPTHS, Ends, RATES, marked_rates, shares};
use line::Verdict;
use lists::{Lookup, Loop, Marked, MarkedRate, Rate};
use patched_mempool::fee_est as patched;
use std::hint::black_box;
use upstream_mempool::fee_est as upstream;

impl Loop {
    /// The Rattle side: its refusal, what it left in the output, and whether it left the rest.
    fn rattle(&self) -> Lent<(u8, Marked)> {
        let copy = black_box(self.clone());
        let mut out = black_box(self.out.clone());
        let refusal = rattle::published_depth_rates(black_box(&copy), &mut out);
        // By bits: a NaN is no difference.
        let kept = black_box(&copy).words();
        Lent {
            answer: (refusal, out),
            kept: crate::words::same(&kept, &self.words()),
        }
    }

    /// The loop, then the lookup of every target in what it left.
    fn rattle_quotes(&self) -> Vec<RateFields> {
        let (_, out) = self.rattle().answer;
        let quote = |target| rattle::fee_at_target_sat_kvb(&self.depths, &out, target);
        self.targets().into_iter().map(quote).collect()
    }

    fn rattle_verdicts(&self) -> Vec<Verdict> {
        let quotes = self.rattle_quotes();
        let rate = |fields: &RateFields| (fields.mark == 1).then_some(fields.rate);
        line::verdicts(self, &quotes.iter().map(rate).collect::<Vec<_>>())
    }
}

impl Lookup {
    fn rattle(&self) -> Lent<RateFields> {
        let copy = black_box(self.clone());
        let answer = rattle::looked_up(black_box(&copy));
        let kept = copy.depths == self.depths && copy.rates == self.rates;
        Lent { answer, kept }
    }
}

/// The loop, the hold pass and the lookup on a Rust side. The refusals are the port's.
macro_rules! rust_side {
    ($name:ident, $package:ident) => {
        mod $name {
            use super::{Lent, Lookup, Loop, Marked, Rate, RateFields};
            use $package::fee_est;

            pub fn hold(rates: &Marked) -> (u8, Marked) {
                let refusal = rates.refusal();
                if refusal > 0 {
                    return (refusal, rates.clone());
                }
                let mut held = rates.rates();
                fee_est::hold_defined_then_monotone(&mut held);
                (0, rates.over(&held))
            }

            /// Per depth the flow, then the published rate; over all the hold pass.
            pub fn loop_over(of: &Loop) -> Vec<Rate> {
                let publish = |i: usize| {
                    let (depth, frontier) = (of.depths[i], of.frontier.rate(i));
                    let flow = fee_est::flow_for_depth(of.projected.rate(i), frontier, depth);
                    let (hist, confirm) = (of.history.rate(i), of.confirm.rate());
                    fee_est::published_depth_rate(depth, of.alpha, flow, frontier, hist, confirm)
                };
                let mut rates: Vec<Rate> = (0..of.depths.len()).map(publish).collect();
                fee_est::hold_defined_then_monotone(&mut rates);
                rates
            }

            pub fn published(of: &Loop) -> Lent<(u8, Marked)> {
                match of.refusal() {
                    0 => (0, Marked::of(&loop_over(of))).into(),
                    refusal => (refusal, of.out.clone()).into(),
                }
            }

            pub fn quotes(of: &Loop) -> Vec<RateFields> {
                let rates = loop_over(of);
                let quote = |target| fee_est::fee_at_target_sat_kvb(&of.depths, &rates, target);
                of.targets().into_iter().map(|t| quote(t).into()).collect()
            }

            pub fn looked_up(of: &Lookup) -> Lent<RateFields> {
                let Lookup {
                    depths,
                    rates,
                    target,
                } = of;
                let answer = of.decided().unwrap_or_else(|| {
                    fee_est::fee_at_target_sat_kvb(depths, &rates.rates(), *target).into()
                });
                answer.into()
            }
        }
    };
}

rust_side!(with_stand_ins, patched_mempool);
rust_side!(as_published, upstream_mempool);

/// Where the Rust's weight has another last digit than the stand-in, and where it is not 0.
fn weight_region(n: u32) -> &'static str {
    match n {
        0..4_250 => "N to 4,249",
        _ => "N from 4,250",
    }
}

fn rate_region(largest: u64) -> &'static str {
    match largest {
        0..=BOUND => "rates to 2^50",
        _ => "rates above 2^50",
    }
}

fn largest(rates: impl IntoIterator<Item = MarkedRate>) -> u64 {
    let rates = rates.into_iter().filter_map(|rate| rate.rate());
    rates.max().unwrap_or(0)
}

fn loop_region(of: &Loop) -> &'static str {
    if of.refusal() > 0 {
        return "refused";
    }
    let lists = [&of.projected, &of.frontier, &of.history];
    let rates = lists.iter().flat_map(|list| list.rates());
    let all = rates.map(MarkedRate::from).chain([of.confirm]);
    rate_region(largest(all))
}

const BLEND_WEIGHT: Function<u32, f64> = Function::new(
    "blend_weight",
    |&n| rattle::blend_weight(n),
    |&n| patched::blend_weight(n),
)
.upstream(|&n| upstream::blend_weight(n), |&n| weight_region(n));

/// The number of blocks and two rates.
type Two = (u32, MarkedRate, MarkedRate);

/// A function of two rates and a number of blocks.
macro_rules! of_two {
    ($side:ident, $name:ident) => {
        |(n, a, b)| $side::$name(a.rate(), b.rate(), *n).into()
    };
}

/// The weight is far from a half at every depth: no answer differs.
const FLOW_FOR_DEPTH: Function<Two, MarkedRate> = Function::new(
    "flow_for_depth",
    |(n, p, f)| rattle::flow_for_depth(*p, *f, *n),
    of_two!(patched, flow_for_depth),
)
.same_upstream(of_two!(upstream, flow_for_depth));

const BLEND_SAT_KVB: Function<Two, MarkedRate> = Function::new(
    "blend_sat_kvb",
    |(n, f, h)| rattle::blend_sat_kvb(*f, *h, *n),
    of_two!(patched, blend_sat_kvb),
)
.upstream(of_two!(upstream, blend_sat_kvb), |(_, f, h)| {
    rate_region(largest([*f, *h]))
});

const WARMUP_BLEND: Function<(f64, MarkedRate, MarkedRate), MarkedRate> = Function::new(
    "warmup_blend",
    |(alpha, c, w)| rattle::warmup_blend(*alpha, *c, *w),
    |(alpha, c, w)| patched::warmup_blend(*alpha, c.rate(), w.rate()).into(),
)
.same_upstream(|(alpha, c, w)| upstream::warmup_blend(*alpha, c.rate(), w.rate()).into());

/// Flow, frontier and history.
type Three = (MarkedRate, MarkedRate, MarkedRate);

macro_rules! depth_rate_of {
    ($side:ident) => {
        |(n, warm, (flow, frontier, hist))| {
            let (flow, frontier, hist) = (flow.rate(), frontier.rate(), hist.rate());
            $side::depth_rate_sat_kvb(*n, *warm, flow, frontier, hist).into()
        }
    };
}

const DEPTH_RATE_SAT_KVB: Function<(u32, bool, Three), MarkedRate> = Function::new(
    "depth_rate_sat_kvb",
    |(n, warm, (flow, frontier, hist))| {
        rattle::depth_rate_sat_kvb(*n, *warm, *flow, *frontier, *hist)
    },
    depth_rate_of!(patched),
)
.upstream(depth_rate_of!(upstream), |(_, warm, three)| {
    let (flow, frontier, hist) = *three;
    match warm {
        true => rate_region(largest([flow, frontier, hist])),
        false => "cold",
    }
});

/// The number of blocks and the share, the three rates, the confirm rate.
type Depth = ((u32, f64), Three, MarkedRate);

macro_rules! published_of {
    ($side:ident) => {
        |((n, alpha), (flow, frontier, hist), confirm)| {
            let (flow, frontier, hist) = (flow.rate(), frontier.rate(), hist.rate());
            $side::published_depth_rate(*n, *alpha, flow, frontier, hist, confirm.rate()).into()
        }
    };
}

const PUBLISHED_DEPTH_RATE: Function<Depth, MarkedRate> = Function::new(
    "published_depth_rate",
    |((n, alpha), (flow, frontier, hist), confirm)| {
        rattle::published_depth_rate(*n, *alpha, *flow, *frontier, *hist, *confirm)
    },
    published_of!(patched),
)
.upstream(published_of!(upstream), |(_, three, confirm)| {
    let (flow, frontier, hist) = *three;
    rate_region(largest([flow, frontier, hist, *confirm]))
});

macro_rules! monotone_of {
    ($side:ident) => {
        |rates: &Vec<u64>| {
            let mut rates = rates.clone();
            $side::enforce_monotone_desc(&mut rates);
            rates
        }
    };
}

const ENFORCE_MONOTONE_DESC: Function<Vec<u64>, Vec<u64>> = Function::new(
    "enforce_monotone_desc",
    monotone_of!(rattle),
    monotone_of!(patched),
)
.same_upstream(monotone_of!(upstream));

const HOLD_DEFINED_THEN_MONOTONE: Function<Marked, (u8, Marked)> = Function::new(
    "hold_defined_then_monotone",
    |rates| {
        let mut held = rates.clone();
        let refusal = rattle::hold_defined_then_monotone(&mut held);
        (refusal, held)
    },
    with_stand_ins::hold,
)
.same_upstream(as_published::hold);

/// The loop by itself.
const PUBLISHED_DEPTH_RATES: Function<Loop, Lent<(u8, Marked)>> = Function::new(
    "published_depth_rates",
    Loop::rattle,
    with_stand_ins::published,
)
.upstream(as_published::published, loop_region);

/// The loop, then the lookup of every target about each depth in the lists as the loop left them.
const QUOTES: Function<Loop, Vec<RateFields>> =
    Function::new("quotes", Loop::rattle_quotes, with_stand_ins::quotes)
        .within(|of| of.refusal() == 0)
        .upstream(as_published::quotes, loop_region);

/// Demand 3: the same loops and lookups beside the exact line.
const EXACT_LINE: Function<Loop, Vec<Verdict>> =
    Function::new("exact_line", Loop::rattle_verdicts, line::expected)
        .within(Loop::within_premises);

const LERP_SAT_KVB: Function<Ends, u64> = Function::new(
    "lerp_sat_kvb",
    |&((d0, left), (d1, right), target)| rattle::lerp_sat_kvb(d0, left, d1, right, target),
    |&((d0, left), (d1, right), target)| patched::lerp_sat_kvb(d0, left, d1, right, target),
)
.same_upstream(|&((d0, left), (d1, right), target)| {
    upstream::lerp_sat_kvb(d0, left, d1, right, target)
});

const FEE_AT_TARGET_SAT_KVB: Function<Lookup, Lent<RateFields>> = Function::new(
    "fee_at_target_sat_kvb",
    Lookup::rattle,
    with_stand_ins::looked_up,
)
.same_upstream(as_published::looked_up);

/// All boundary values in all combinations.
mod boundary {
    use super::*;

    pub fn twos() -> Vec<Two> {
        crate::values::triples(&DEPTHS, &marked_rates(), &marked_rates())
    }

    pub fn threes() -> Vec<Three> {
        crate::values::triples(&marked_rates(), &marked_rates(), &marked_rates())
    }

    pub fn depth_rates() -> Vec<(u32, bool, Three)> {
        crate::values::triples(&DEPTHS, &[false, true], &threes())
    }

    pub fn depths() -> Vec<Depth> {
        let near = [0, 1, 2, 6, 4_249, 4_250];
        crate::values::triples(&pairs(&near, &shares()), &threes(), &marked_rates())
    }

    pub fn ends() -> Vec<Ends> {
        let ends = pairs(&DEPTHS, &RATES);
        crate::values::triples(&ends, &ends, &DEPTHS)
    }

    /// Lists of up to six rates, each missing, low or high.
    pub fn holds() -> Vec<Marked> {
        let kinds = [(7, 0), (3, 1), (9, 1)];
        let mut lists = vec![Vec::new()];
        let mut last = lists.clone();
        for _ in 0..6 {
            last = last
                .iter()
                .flat_map(|list| kinds.map(|kind| [&list[..], &[kind]].concat()))
                .collect();
            lists.extend(last.clone());
        }
        lists.into_iter().map(Marked::of_pairs).collect()
    }
}

/// Cases D, E, F and J of document 01.
mod document {
    use super::*;

    pub const LINES: [Ends; 3] = [
        ((3, 10), (6, 5), 4),
        ((3, 10), (6, 5), 5),
        ((1, 4), (3, 1), 2),
    ];

    pub fn hold() -> Marked {
        Marked::of(&[None, Some(9), None, Some(12), Some(7), None, Some(8)])
    }

    pub fn lookups() -> Vec<Lookup> {
        let lookup = |target| Lookup {
            depths: vec![2, 6, 12],
            rates: Marked::of(&[None, Some(600), Some(300)]),
            target,
        };
        [1, 2, 4, 9, 1_000].map(lookup).into()
    }

    pub fn blends() -> Vec<(f64, MarkedRate, MarkedRate)> {
        let [none, cold, warm] = [None, Some(3), Some(4)].map(MarkedRate::from);
        vec![
            (0.5, cold, warm),
            (f64::NAN, cold, warm),
            (0.99, none, warm),
            (1.0, none, warm),
        ]
    }
}

/// The functions of one depth.
fn depth_jobs(some: u64, more: u64) -> Vec<Job> {
    vec![
        Job::over(BLEND_WEIGHT, 0..100_001_u32),
        Job::over(BLEND_WEIGHT, DEPTHS),
        Job::random(BLEND_WEIGHT, some, |rng| rng.of_bits(32) as u32),
        Job::over(FLOW_FOR_DEPTH, boundary::twos()),
        Job::random(FLOW_FOR_DEPTH, some, draw_two),
        Job::over(BLEND_SAT_KVB, boundary::twos()),
        Job::random(BLEND_SAT_KVB, more, draw_two),
        Job::over(WARMUP_BLEND, document::blends()),
        Job::over(
            WARMUP_BLEND,
            crate::values::triples(&shares(), &marked_rates(), &marked_rates()),
        ),
        Job::random(WARMUP_BLEND, more, |rng| {
            let (_, cold, warm) = draw_two(rng);
            (draw::draw_share(rng), cold, warm)
        }),
        Job::over(DEPTH_RATE_SAT_KVB, boundary::depth_rates()),
        Job::random(DEPTH_RATE_SAT_KVB, more, |rng| {
            (draw::draw_depth(rng), rng.below(2) == 0, draw_three(rng))
        }),
        Job::over(PUBLISHED_DEPTH_RATE, boundary::depths()),
        Job::random(PUBLISHED_DEPTH_RATE, more, draw_published),
    ]
}

fn draw_two(rng: &mut Rng) -> Two {
    let (a, b, _) = draw_three(rng);
    (draw::draw_depth(rng), a, b)
}

fn draw_three(rng: &mut Rng) -> Three {
    let mut draw = || draw::draw_marked(rng);
    (draw(), draw(), draw())
}

fn draw_published(rng: &mut Rng) -> Depth {
    let first = (draw::draw_depth(rng), draw::draw_share(rng));
    (first, draw_three(rng), draw::draw_marked(rng))
}

/// The functions of lists.
fn list_jobs(plan: &Plan) -> Vec<Job> {
    let some = plan.scaled(1_000_000);
    let lookups = plan.scaled(2_000_000);
    vec![
        Job::random(ENFORCE_MONOTONE_DESC, some, |rng| {
            draw::draw_hold(rng).numbers
        }),
        Job::over(HOLD_DEFINED_THEN_MONOTONE, [document::hold()]),
        Job::over(HOLD_DEFINED_THEN_MONOTONE, boundary::holds()),
        Job::random(HOLD_DEFINED_THEN_MONOTONE, some, draw::draw_hold),
        Job::random(PUBLISHED_DEPTH_RATES, some, draw::draw_loop),
        Job::random(PUBLISHED_DEPTH_RATES, some, draw::draw_spoiled_loop),
        Job::random(QUOTES, some, draw::draw_loop),
        Job::random(EXACT_LINE, plan.scaled(400_000), draw::draw_bounded_loop),
        Job::over(LERP_SAT_KVB, document::LINES),
        Job::over(LERP_SAT_KVB, boundary::ends()),
        Job::random(LERP_SAT_KVB, plan.scaled(3_000_000), draw::draw_ends),
        Job::over(FEE_AT_TARGET_SAT_KVB, document::lookups()),
        Job::random(FEE_AT_TARGET_SAT_KVB, lookups, draw::draw_lookup),
        Job::random(FEE_AT_TARGET_SAT_KVB, lookups, draw::draw_spoiled_lookup),
    ]
}

pub struct Depths;

impl Part for Depths {
    fn name(&self) -> &'static str {
        "depths"
    }

    fn jobs(&self, plan: &Plan) -> Vec<Job> {
        let mut jobs = depth_jobs(plan.scaled(1_000_000), plan.scaled(3_000_000));
        jobs.extend(list_jobs(plan));
        jobs
    }

    fn remarks(&self) -> Vec<String> {
        let seen = line::SEEN.lock().expect("no verdict panics");
        let Some(largest) = &seen.largest else {
            return Vec::new();
        };
        let (quotes, largest) = (seen.quotes, largest.about());
        vec![format!(
            "{quotes} quotes beside the exact line, the largest distance {largest:.6} (demand 3: below 2.5)"
        )]
    }

    fn replay(&self, replay: &mut Replay) {
        replay.ask(&BLEND_WEIGHT, DEPTHS);
        replay.ask_random(&BLEND_WEIGHT, 16, draw::draw_depth);
        replay.ask_random(&FLOW_FOR_DEPTH, 16, draw_two);
        replay.ask_random(&BLEND_SAT_KVB, 24, draw_two);
        replay.ask(&WARMUP_BLEND, document::blends());
        let shares = shares().into_iter();
        let [cold, warm] = [Some(1_000), Some(2_001)].map(MarkedRate::from);
        replay.ask(&WARMUP_BLEND, shares.map(|share| (share, cold, warm)));
        replay.ask_random(&DEPTH_RATE_SAT_KVB, 16, |rng| {
            (draw::draw_depth(rng), rng.below(2) == 0, draw_three(rng))
        });
        replay.ask_random(&PUBLISHED_DEPTH_RATE, 32, draw_published);
        replay.ask(&LERP_SAT_KVB, document::LINES);
        replay.ask_random(&LERP_SAT_KVB, 24, draw::draw_ends);
        ask_lists(replay);
    }

    fn bench(&self, bench: &mut Bench) {
        timed::bench(bench);
    }
}

/// Short lists, since a question has all of them on its line.
fn ask_lists(replay: &mut Replay) {
    replay.ask(&HOLD_DEFINED_THEN_MONOTONE, [document::hold()]);
    replay.ask_random(&HOLD_DEFINED_THEN_MONOTONE, 16, draw::draw_hold);
    replay.ask_random(&ENFORCE_MONOTONE_DESC, 8, |rng| {
        draw::draw_hold(rng).numbers
    });
    replay.ask_random(&PUBLISHED_DEPTH_RATES, 20, |rng| {
        short(rng, draw::draw_loop)
    });
    replay.ask_random(&PUBLISHED_DEPTH_RATES, 16, |rng| {
        short(rng, draw::draw_spoiled_loop)
    });
    replay.ask(&FEE_AT_TARGET_SAT_KVB, document::lookups());
    replay.ask_random(&FEE_AT_TARGET_SAT_KVB, 24, |rng| {
        short(rng, draw::draw_lookup)
    });
    replay.ask_random(&FEE_AT_TARGET_SAT_KVB, 12, |rng| {
        short(rng, draw::draw_spoiled_lookup)
    });
}

/// The first that is no longer than 80 words.
fn short<I: Words>(rng: &mut Rng, draw: fn(&mut Rng) -> I) -> I {
    loop {
        let input = draw(rng);
        if input.words().len() <= 80 {
            return input;
        }
    }
}

#[cfg(test)]
mod tests {
    use super::*;

    #[test]
    fn the_rust_answers_document_01() {
        let lines = document::LINES.map(|ends| (LERP_SAT_KVB.patched)(&ends));
        assert_eq!(lines, [8, 7, 3]);
        let mut rates = document::hold().rates();
        patched::hold_defined_then_monotone(&mut rates);
        let held = [None, Some(9), Some(9), Some(9), Some(7), Some(7), Some(7)];
        assert_eq!(rates, held);
        let lookups = document::lookups();
        let quote =
            |of: &Lookup| patched::fee_at_target_sat_kvb(&of.depths, &of.rates.rates(), of.target);
        let quotes: Vec<Rate> = lookups.iter().map(quote).collect();
        assert_eq!(quotes, [None, None, None, Some(450), Some(300)]);
        let blend = |(alpha, cold, warm): &(f64, MarkedRate, MarkedRate)| {
            patched::warmup_blend(*alpha, cold.rate(), warm.rate())
        };
        let blends: Vec<Rate> = document::blends().iter().map(blend).collect();
        assert_eq!(blends, [Some(4), Some(3), None, Some(4)]);
    }

    #[test]
    fn loops_and_lookups_are_of_every_kind() {
        let mut rng = Rng::new(1, "kinds");
        let mut loops = [0; 9];
        let mut lookups = [0; 9];
        for _ in 0..2_000 {
            loops[usize::from(draw::draw_spoiled_loop(&mut rng).refusal())] += 1;
            let of = draw::draw_spoiled_lookup(&mut rng);
            let decided = of.decided();
            // No rate is counted as 3, and the Rust's cases as 4.
            let kind = decided.map_or(4, |fields| {
                if fields.refusal > 0 {
                    fields.refusal
                } else {
                    3
                }
            });
            lookups[usize::from(kind)] += 1;
            assert_eq!(draw::draw_loop(&mut rng).refusal(), 0);
            assert!(draw::draw_bounded_loop(&mut rng).within_premises());
        }
        assert!([1, 2, 8].iter().all(|k| loops[*k] > 100), "{loops:?}");
        assert!(
            [1, 2, 3, 4, 8].iter().all(|k| lookups[*k] > 20),
            "{lookups:?}"
        );
    }

    /// A quote that is 5/2 away, one that rises, a point without a quote and a quote without a point are each seen.
    #[test]
    fn verdicts_can_fail() {
        let of = Loop {
            depths: vec![2, 6],
            projected: Marked::of(&[None, None]),
            frontier: Marked::of(&[None, None]),
            history: Marked::of(&[Some(100), Some(50)]),
            confirm: None.into(),
            alpha: 0.0,
            out: Marked::of(&[None, None]),
        };
        let expected = line::expected(&of);
        let targets: Vec<u32> = expected.iter().map(|verdict| verdict.target).collect();
        assert_eq!(targets, [0, 1, 2, 3, 4, 5, 6, 7, u32::MAX]);
        let mut quotes = [
            None,
            None,
            Some(100),
            Some(88),
            Some(75),
            Some(63),
            Some(50),
            Some(50),
            Some(50),
        ];
        assert_eq!(line::verdicts(&of, &quotes), expected);
        // At 3 blocks the line is at 87.5.
        quotes[3] = Some(90);
        assert!(!line::verdicts(&of, &quotes)[3].near);
        quotes[3] = Some(89);
        assert_eq!(line::verdicts(&of, &quotes), expected);
        quotes[7] = Some(51);
        assert!(!line::verdicts(&of, &quotes)[7].ordered);
        quotes[7] = None;
        assert_ne!(line::verdicts(&of, &quotes), expected);
        quotes[7] = Some(50);
        quotes[0] = Some(100);
        assert_ne!(line::verdicts(&of, &quotes), expected);
    }
}
