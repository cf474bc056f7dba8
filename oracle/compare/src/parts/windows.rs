//! Part `windows`: the pair windows of fee_analog.rs. After each call of a sequence the answer, the
//! hurdles and every pair of every target are compared; and whether a refused call, or one that only
//! reads, left every element of the lent lists. Where the Rust would panic or has no such case, the
//! expected answer is document 01's refusal.

pub(super) mod foreign;
pub(super) mod inputs;
pub(super) mod model;
pub(super) mod rattle;
mod replayed;
mod sides;
mod timing;

use super::Part;
use crate::bench::Bench;
use crate::check::{Function, Job, Plan};
use crate::lent::{Lent, RateFields, lend};
use crate::replay::Replay;
use crate::rng::Rng;
use crate::values::{boundary_words, pairs};
use inputs::{CONFIDENCES, Quote, Scan, Story};
use patched_mempool::fee_analog as patched;
use patched_mempool::fee_analog::{ANALOG_BAND, ANALOG_MIN_NEIGHBORS};
use patched_mempool::stand_in;
use sides::{
    After, Call, Case, Opening, Patched, Port, Rust, Side, Step, Upstream, run, run_to_end,
};
use upstream_mempool::fee_analog as upstream;

const BAND: Function<(), f64> =
    Function::new("analog_band", |_| rattle::analog_band(), |_| ANALOG_BAND)
        .same_upstream(|_| upstream::ANALOG_BAND);

const CONFIDENCE_FAR: Function<(), f64> = Function::new(
    "historical_confidence_far",
    |_| rattle::historical_confidence_far(),
    |_| patched::HISTORICAL_CONFIDENCE_FAR,
)
.same_upstream(|_| upstream::HISTORICAL_CONFIDENCE_FAR);

const ANALOG_LOOKBACK: Function<u32, usize> = Function::new(
    "analog_lookback",
    |&n| rattle::analog_lookback(n),
    |&n| patched::analog_lookback(n),
)
.same_upstream(|&n| upstream::analog_lookback(n));

const LN_RATE: Function<u64, f64> = Function::new(
    "ln_rate",
    |&rate| rattle::ln_rate(rate),
    |&rate| patched::ln_rate(rate),
)
.upstream(|&rate| upstream::ln_rate(rate), |_| "a rate");

/// Refused of an empty list, where the Rust panics.
macro_rules! lower_median_of {
    ($side:ident) => {
        |list| {
            let median = match list.is_empty() {
                true => RateFields::refused(6),
                false => Some($side::lower_median(list.iter().copied())).into(),
            };
            median.into()
        }
    };
}

const LOWER_MEDIAN: Function<Vec<u64>, Lent<RateFields>> = Function::new(
    "lower_median",
    |list| lend([list], |[list]| rattle::lower_median(list)),
    lower_median_of!(patched),
)
.same_upstream(lower_median_of!(upstream));

/// The confidence and the list.
type Share = (f64, Vec<u64>);
/// The quantile, and the list as it was left.
type Left = (RateFields, Vec<u64>);

/// Refused of an empty list, then of what is no confidence: the Rust panics, or answers by a place that
/// is none. A refusal leaves the list.
macro_rules! log_quantile_of {
    ($side:ident) => {
        |(confidence, list)| {
            let mut left = list.clone();
            let quantile = match (left.is_empty(), (0.0..=1.0).contains(confidence)) {
                (true, _) => RateFields::refused(6),
                (_, false) => RateFields::refused(7),
                _ => Some($side::log_quantile(&mut left, *confidence)).into(),
            };
            (quantile, left)
        }
    };
}

const LOG_QUANTILE: Function<Share, Left> = Function::new(
    "log_quantile",
    |(confidence, list): &Share| {
        let mut left = list.clone();
        let quantile = rattle::log_quantile(&mut left, *confidence);
        (quantile, left)
    },
    log_quantile_of!(patched),
)
.upstream(log_quantile_of!(upstream), |(confidence, list)| {
    let mut sorted = list.clone();
    sorted.sort_unstable();
    quantile_region(*confidence, &sorted)
});

/// Whether the quantile of an ascending list asks for logarithms.
fn quantile_region(confidence: f64, sorted: &[u64]) -> &'static str {
    if sorted.is_empty() || !(0.0..=1.0).contains(&confidence) {
        return "refused";
    }
    let count = sorted.len() as f64;
    let rank = (confidence * count).clamp(1.0, count);
    let place = |rank: f64| sorted[rank as usize - 1];
    match (place(rank.floor()), place(rank.ceil())) {
        (lower, upper) if lower == upper => "on one hurdle",
        (0, _) => "above 0",
        _ => "between two hurdles",
    }
}

/// Up to 79 calls on small windows, which are compared after each.
const CALLS: Function<Case, Vec<After>> = Function::new("calls", run::<Port>, run::<Rust<Patched>>)
    .upstream(run::<Rust<Upstream>>, |_| "up to 79 calls");

/// Thousands of calls: each answer is compared, and the windows at the end.
const STORY: Function<Story, Vec<After>> = Function::new(
    "story",
    |story| run_to_end::<Port>(&story.case()),
    |story| run_to_end::<Rust<Patched>>(&story.case()),
);

/// The rate of windows that were rebuilt.
const RATE: Function<Quote, Lent<RateFields>> =
    Function::new("rate_sat_kvb", rate_of::<Port>, rate_of::<Rust<Patched>>)
        .upstream(rate_of::<Rust<Upstream>>, rate_region);

fn rate_of<S: Side>(quote: &Quote) -> Lent<RateFields> {
    let (opening, steps) = quote.case();
    let (mut windows, _) = S::open(&opening);
    let replies = steps.iter().map(|step| windows.step(step));
    replies.last().expect("a rate is asked for")
}

/// What the Rust's rate of a quote rests on: how many pairs are in band, and whether another pair is as
/// far away as the 200th nearest.
struct Neighbors {
    in_band: usize,
    equals: bool,
}

impl Neighbors {
    /// None where there is no rate. The distances are those of the patched Rust.
    fn of(quote: &Quote) -> Option<Neighbors> {
        let mut history = Patched::new(&[quote.target]);
        history.rebuild(quote.stretch.hurdles());
        history.rate_sat_kvb(quote.target, quote.confidence)?;
        let depth = &history.depths[0];
        let newest = history
            .hurdles
            .range(history.hurdles.len() - depth.lookback..);
        let now = patched::ln_rate(patched::lower_median(newest.copied()));
        let distances = depth.pairs.iter().map(|(before, _)| (before - now).abs());
        let mut distances: Vec<f64> = distances.collect();
        distances.sort_by(f64::total_cmp);
        let band = stand_in::ln(ANALOG_BAND);
        Some(Neighbors {
            in_band: distances.partition_point(|distance| *distance <= band),
            equals: distances[ANALOG_MIN_NEIGHBORS - 1] == distances[ANALOG_MIN_NEIGHBORS],
        })
    }
}

fn rate_region(quote: &Quote) -> &'static str {
    if let rattle::HURDLES..=rattle::SCRATCH = quote.short {
        return "refused";
    }
    match Neighbors::of(quote) {
        None => "no rate",
        Some(of) if of.in_band >= ANALOG_MIN_NEIGHBORS => "200 or more in band",
        Some(of) if of.equals => "the 200 nearest, equals at the cut",
        Some(_) => "the 200 nearest, no equals at the cut",
    }
}

/// The rate of pairs that no call stored.
const SCAN: Function<Scan, Lent<RateFields>> = Function::new(
    "rate_of_foreign_pairs",
    |scan| {
        let hurdles = scan.hurdles();
        let (mut port, _) = Port::open(&Opening {
            targets: vec![1],
            capacity: hurdles.len() as u64,
            short: 0,
        });
        port.step(&Call::Rebuild(hurdles).into());
        for (place, (before, ahead)) in foreign_pairs(scan).into_iter().enumerate() {
            port.memory.befores[port.state.start + 3 + place] = before;
            port.memory.aheads[port.state.start + 3 + place] = ahead;
        }
        port.step(&Call::Rate(1, scan.confidence).into())
    },
    |scan| {
        let mut history = Patched::new(&[1]);
        history.rebuild(scan.hurdles());
        history.depths[0].pairs = foreign_pairs(scan).into();
        RateFields::from(history.rate_sat_kvb(1, scan.confidence)).into()
    },
);

fn foreign_pairs(scan: &Scan) -> Vec<(f64, u64)> {
    scan.pairs(patched::ln_rate(scan.level), stand_in::ln(ANALOG_BAND))
}

/// Targets, capacity and start; count and call, on a state that no call returns.
type Foreign = ((u64, u64, u64), (u64, Call));

/// 3, then 5; the Rust has no such state. Nothing changes.
const FOREIGN_STATE: Function<Foreign, Lent<RateFields>> = Function::new(
    "foreign_state",
    |((tracked, capacity, start), (count, call)): &Foreign| {
        let mut port = Port {
            state: rattle::State {
                targets: [1; 16],
                tracked: *tracked as usize,
                capacity: *capacity as usize,
                start: *start as usize,
                count: *count as usize,
            },
            memory: rattle::Memory::new(2, 16),
        };
        port.step(&call.clone().into())
    },
    |foreign| RateFields::refused(foreign_refusal(foreign)).into(),
)
.within(|foreign| foreign_refusal(foreign) != 0);

fn foreign_refusal(((tracked, capacity, start), (count, _)): &Foreign) -> u8 {
    let end = u128::from(*start) + u128::from(*count);
    match (
        *tracked > 16,
        *capacity > 65_536 || end > u128::from(*capacity),
    ) {
        (true, _) => 3,
        (false, true) => 5,
        (false, false) => 0,
    }
}

fn draw_foreign(rng: &mut Rng) -> Foreign {
    let mut size = |usual: u64| match rng.below(3) {
        0 => rng.pick(&[15, 16, 17, 65_536, 65_537, u64::MAX - 16, u64::MAX]),
        _ => rng.below(usual),
    };
    let sizes = (size(18), size(18), size(20));
    let count = size(20);
    let call = match rng.below(7) {
        0 => Call::PushBack(rng.word()),
        1 => Call::PushFront(rng.word()),
        2 => Call::PopBack,
        3 => Call::PopFront,
        4 => Call::Rebuild(vec![rng.word(); rng.below(4) as usize]),
        5 => Call::Pairs(rng.below(3) as u32),
        _ => Call::Rate(rng.below(3) as u32, inputs::draw_confidence(rng)),
    };
    (sizes, (count, call))
}

/// Document 01's case L, after 5 9 7 and after 8.
fn case_l() -> Case {
    let opening = Opening {
        targets: vec![1],
        capacity: 8,
        short: 0,
    };
    let calls = [5, 9, 7, 8].map(|hurdle| Call::PushBack(hurdle).into());
    (opening, calls.into())
}

/// Targets and capacities at every limit.
const SIZES: [(u32, u64); 13] = [
    (0, 0),
    (0, 5),
    (1, 0),
    (1, 1),
    (2, 2),
    (3, 9),
    (16, 8),
    (17, 8),
    (17, 0),
    (17, 65_537),
    (1, 65_536),
    (1, 65_537),
    (0, u64::MAX),
];

/// Calls about the limits of windows that hold a few hurdles at most.
fn limit_calls(capacity: u64) -> [Call; 11] {
    let few = capacity.min(8) as usize;
    [
        Call::PopBack,
        Call::PopFront,
        Call::PushBack(7),
        Call::PushFront(9),
        Call::PushBack(8),
        Call::Rate(1, 0.5),
        Call::Rate(99, f64::NAN),
        Call::Pairs(1),
        Call::Rebuild(vec![3; few]),
        Call::Rebuild(vec![4; few + 1]),
        Call::PushFront(u64::MAX),
    ]
}

/// Case L, and openings at every limit with calls on what they leave: with each list too short in turn,
/// and with exact lists.
fn opening_cases() -> Vec<Case> {
    let mut cases = vec![case_l()];
    let shorts: Vec<u8> = (0..=rattle::EXACT).collect();
    for ((count, capacity), (short, call_short)) in pairs(&SIZES, &pairs(&shorts, &shorts)) {
        let opening = Opening {
            targets: (0..count).collect(),
            capacity,
            short,
        };
        let step = |call| Step {
            call,
            short: call_short,
        };
        cases.push((opening, limit_calls(capacity).map(step).into()));
    }
    cases
}

fn list_jobs(some: u64) -> Vec<Job> {
    let mut rng = Rng::new(0, "windows every length");
    let lengths = (0..=210).chain([1_000, 31_000]);
    let lists: Vec<Vec<u64>> = lengths
        .flat_map(|length| [length; 7])
        .map(|length| inputs::draw_list(&mut rng, length))
        .collect();
    // The confidences of the first 40 whole ranks at most, and the fixed ones.
    let ranks = |list: &Vec<u64>| {
        let count = list.len() as u64;
        let ranks = (1..=count.min(40)).map(move |rank| rank as f64 / count as f64);
        ranks.chain(CONFIDENCES).collect::<Vec<f64>>()
    };
    let shares: Vec<Share> = lists
        .iter()
        .filter(|list| list.len() < 300)
        .flat_map(|list| ranks(list).into_iter().map(|c| (c, list.clone())))
        .collect();
    let long: Vec<Share> = lists[lists.len() - 14..]
        .iter()
        .map(|list| (0.95, list.clone()))
        .collect();
    vec![
        Job::over(LOWER_MEDIAN, vec![vec![5, 1, 4, 2]]),
        Job::over(LOWER_MEDIAN, lists),
        Job::random(LOWER_MEDIAN, some, |rng| {
            let length = rng.below(200);
            inputs::draw_list(rng, length)
        }),
        Job::over(LOG_QUANTILE, shares),
        Job::over(LOG_QUANTILE, long),
        Job::random(LOG_QUANTILE, some, |rng| {
            let length = rng.below(300);
            (inputs::draw_confidence(rng), inputs::draw_list(rng, length))
        }),
    ]
}

fn number_jobs(some: u64) -> Vec<Job> {
    let blocks = boundary_words().into_iter();
    let blocks: Vec<u32> = blocks.filter_map(|word| word.try_into().ok()).collect();
    vec![
        Job::over(BAND, [()]),
        Job::over(CONFIDENCE_FAR, [()]),
        Job::over(ANALOG_LOOKBACK, [0, 12, 16, 576]),
        Job::over(ANALOG_LOOKBACK, 0..100_001_u32),
        Job::over(ANALOG_LOOKBACK, blocks),
        Job::random(ANALOG_LOOKBACK, some, |rng| rng.of_bits(32) as u32),
        Job::over(LN_RATE, (0..65_536_u32).map(u64::from)),
        Job::over(LN_RATE, boundary_words()),
        Job::random(LN_RATE, some, Rng::of_any_length),
    ]
}

pub struct PairWindows;

impl Part for PairWindows {
    fn name(&self) -> &'static str {
        "windows"
    }

    fn jobs(&self, plan: &Plan) -> Vec<Job> {
        let mut jobs = number_jobs(plan.scaled(1_000_000));
        jobs.extend(list_jobs(plan.scaled(1_000_000)));
        jobs.extend([
            Job::over(CALLS, opening_cases()),
            Job::random(CALLS, plan.scaled(40_000), inputs::draw_calls),
            Job::random(FOREIGN_STATE, plan.scaled(1_000_000), draw_foreign),
            Job::random(STORY, plan.scaled(400), inputs::draw_story),
            Job::over(STORY, inputs::box_stories()),
            Job::over(RATE, inputs::fixed_quotes()),
            Job::random(RATE, plan.scaled(10_000), inputs::draw_quote),
            Job::random(SCAN, plan.scaled(10_000), inputs::draw_scan),
            Job::random(
                foreign::FOREIGN_CALLS,
                plan.scaled(500_000),
                foreign::draw_used,
            ),
            Job::random(
                foreign::FOREIGN_RATES,
                plan.scaled(10_000),
                foreign::draw_rated,
            ),
        ]);
        jobs
    }

    fn replay(&self, replay: &mut Replay) {
        replayed::ask(replay);
    }

    fn bench(&self, bench: &mut Bench) {
        timing::rows(bench);
    }
}

#[cfg(test)]
mod tests {
    use super::*;
    use std::collections::HashMap;

    /// Cases H, I and L.
    #[test]
    fn the_rust_answers_document_01() {
        assert_eq!(patched::lower_median([5, 1, 4, 2].into_iter()), 2);
        assert_eq!(
            [0, 12, 16, 576].map(patched::analog_lookback),
            [3, 3, 4, 144]
        );
        check_case_l(run::<Rust<Patched>>(&case_l()));
    }

    #[test]
    fn the_port_answers_case_l() {
        check_case_l(run::<Port>(&case_l()));
    }

    /// No pair after 5 9 7; after 8 the pair of ln 7 and 8.
    fn check_case_l(mut after: Vec<After>) {
        let mut last = || {
            let state = after.pop().expect("four pushes").state;
            state.expect("each state is kept")
        };
        let (four, three) = (last(), last());
        assert_eq!(four.hurdles, [5, 9, 7, 8]);
        assert_eq!(four.pairs, [(1, vec![(stand_in::ln(7.0), 8)])]);
        assert_eq!(three.hurdles, [5, 9, 7]);
        assert_eq!(three.pairs, [(0, vec![])]);
    }

    /// 199, 200 and 201 in band, equals at the cut, and each kind often enough.
    #[test]
    fn quotes_are_of_every_kind() {
        let mut rng = Rng::new(1, "kinds");
        let fixed = inputs::fixed_quotes().into_iter();
        let fixed = fixed.filter(|quote| quote.confidence == 0.95);
        let drawn = (0..500).map(|_| inputs::draw_quote(&mut rng));
        let mut regions = HashMap::new();
        let mut exactly = [0; 3];
        for quote in fixed.chain(drawn) {
            *regions.entry(rate_region(&quote)).or_insert(0) += 1;
            if let Some(of) = Neighbors::of(&quote)
                && let 199..=201 = of.in_band
            {
                exactly[of.in_band - 199] += 1;
            }
        }
        assert_eq!(regions.len(), 5, "{regions:?}");
        assert!(regions.values().all(|count| *count > 10), "{regions:?}");
        assert!(exactly.iter().all(|count| *count > 0), "{exactly:?}");
    }

    /// Fewer than 200 in band, and the windows of the other level equally far away: the older of them are
    /// taken, and the newer would give another rate.
    #[test]
    fn the_older_of_equals_is_taken() {
        let quote = |seed| Quote {
            stretch: inputs::Stretch {
                kind: inputs::STEP,
                seed,
                length: 2_100,
            },
            target: 1,
            confidence: 0.99,
            short: 0,
        };
        let differs = |quote: &Quote| {
            let rate = rate_of::<Rust<Patched>>(quote).answer;
            assert_eq!(rate_of::<Port>(quote).answer, rate);
            rate != rate_of_newer(quote)
        };
        let differ = (0..20).filter(|seed| differs(&quote(*seed))).count();
        assert!(differ > 10, "{differ} of 20");
    }

    /// The rate if the newer of equals were taken.
    fn rate_of_newer(quote: &Quote) -> RateFields {
        let mut history = Patched::new(&[quote.target]);
        history.rebuild(quote.stretch.hurdles());
        history.depths[0].pairs.make_contiguous().reverse();
        history.rate_sat_kvb(quote.target, quote.confidence).into()
    }

    #[test]
    fn a_changed_list_is_a_difference() {
        let (opening, steps) = case_l();
        let (mut port, _) = Port::open(&opening);
        for step in &steps {
            assert!(port.step(step).kept);
        }
        let (state, memory) = (port.state, port.memory.clone());
        let call = Call::Rate(1, 0.5);
        let none = RateFields::from(None);
        assert!(port.keeps(&call, none, state, &memory));
        port.memory.befores[7] += 1.0;
        assert!(!port.keeps(&call, none, state, &memory));
        port.memory = memory.clone();
        port.memory.scratch[0] ^= 1;
        assert!(!port.keeps(&call, none, state, &memory));
        assert!(port.keeps(&call, Some(1).into(), state, &memory));
    }
}
