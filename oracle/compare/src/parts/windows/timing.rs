//! Both sides at the box's size. Each has its own windows, and is given the same calls.

use super::inputs::{BOX_CAPACITY, BOX_HURDLES, BOX_TARGETS, CALM, Stretch, length_for};
use super::rattle;
use super::sides::{Call, Opening, Patched, Port, Side};
use crate::bench::{Bench, INPUTS, row};
use crate::rng::Rng;
use patched_mempool::fee_analog as patched;
use std::hint::black_box;

/// The Rust as it is timed: never inlined, so that both sides pay for a call.
mod rust {
    use super::Patched;
    use patched_mempool::fee_analog as patched;

    #[inline(never)]
    pub extern "C" fn analog_band() -> f64 {
        patched::ANALOG_BAND
    }

    #[inline(never)]
    pub extern "C" fn historical_confidence_far() -> f64 {
        patched::HISTORICAL_CONFIDENCE_FAR
    }

    #[inline(never)]
    pub fn push_back(windows: &mut Patched, hurdle: u64) {
        windows.push_back(hurdle);
    }

    #[inline(never)]
    pub fn push_front(windows: &mut Patched, hurdle: u64) {
        windows.push_front(hurdle);
    }

    #[inline(never)]
    pub fn pop_back(windows: &mut Patched) {
        windows.pop_back();
    }

    #[inline(never)]
    pub fn pop_front(windows: &mut Patched) {
        windows.pop_front();
    }

    #[inline(never)]
    pub fn rebuild(windows: &mut Patched, from: &[u64]) {
        windows.rebuild(from.iter().copied());
    }

    #[inline(never)]
    pub fn rate_sat_kvb(windows: &Patched, n: u32, confidence: f64) -> Option<u64> {
        windows.rate_sat_kvb(n, confidence)
    }

    #[inline(never)]
    pub fn lower_median(values: &[u64]) -> u64 {
        patched::lower_median(values.iter().copied())
    }

    #[inline(never)]
    pub fn log_quantile(outcomes: &mut [u64], confidence: f64) -> u64 {
        patched::log_quantile(outcomes, confidence)
    }
}

impl Port {
    fn all(&mut self) -> rattle::Lists<'_> {
        self.memory.lend(0, 0, 0)
    }

    fn push_back(&mut self, hurdle: u64) {
        self.state = rattle::push_back(self.state, hurdle, &mut self.all()).state;
    }

    fn push_front(&mut self, hurdle: u64) {
        self.state = rattle::push_front(self.state, hurdle, &mut self.all()).state;
    }

    fn rebuild(&mut self, from: &[u64]) {
        self.state = rattle::rebuild(self.state, from, &mut self.all()).state;
    }

    fn rate_sat_kvb(&mut self, n: u32, confidence: f64) -> u64 {
        let found = rattle::rate_sat_kvb(self.state, n, confidence, &mut self.all());
        assert_eq!(found.mark, 1, "the windows are ready");
        found.rate
    }
}

fn calm(seed: u64, length: u64) -> Vec<u64> {
    let kind = CALM;
    Stretch { kind, seed, length }.hurdles()
}

/// Windows of both sides over the same hurdles.
fn windows(targets: &[u32], hurdles: &[u64]) -> (Port, Patched) {
    let (mut port, _) = Port::open(&Opening {
        targets: targets.to_vec(),
        capacity: BOX_CAPACITY,
        short: 0,
    });
    port.step(&Call::Rebuild(hurdles.to_vec()).into());
    assert_eq!(port.state.count, hurdles.len(), "the hurdles are held");
    let mut history = Patched::new(targets);
    history.rebuild(hurdles.iter().copied());
    (port, history)
}

fn number_rows(bench: &mut Bench) {
    let mut rng = Rng::new(1, "bench windows numbers");
    row!(bench, &[(); INPUTS], analog_band());
    row!(bench, &[(); INPUTS], historical_confidence_far());
    let blocks: Vec<u32> = (0..INPUTS).map(|_| 1 + rng.below(1_100) as u32).collect();
    row!(bench, &blocks, analog_lookback(n), patched::analog_lookback);
    let rates: Vec<u64> = (0..INPUTS).map(|_| 1_000 + rng.below(100_000)).collect();
    row!(bench, &rates, ln_rate(rate), patched::ln_rate);
}

/// The Rust allocates its targets; the Rattle is lent its memory once, while no clock runs.
fn opening_row(bench: &mut Bench) {
    let (mut port, _) = windows(&BOX_TARGETS, &[]);
    let (mut targets, mut lent) = (BOX_TARGETS, port.all());
    let opened = black_box(Patched::new as fn(&[u32]) -> Patched);
    bench.row(
        "windows_new_11_targets",
        &[(); INPUTS],
        |_| {
            let windows = rattle::new(&mut targets, BOX_CAPACITY as usize, &mut lent);
            black_box(&windows).refusal
        },
        |_| {
            let windows = opened(&BOX_TARGETS);
            black_box(&windows).depths.len()
        },
    );
}

/// 31,000 hurdles are held. Of eight numbers of blocks one is any, most often of no tracked target.
fn pairs_row(bench: &mut Bench) {
    let (port, history) = windows(&BOX_TARGETS, &calm(1, BOX_HURDLES));
    let mut rng = Rng::new(1, "bench windows pairs");
    let asked = |_| match rng.below(8) {
        0 => 1 + rng.below(1_100) as u32,
        _ => rng.pick(&BOX_TARGETS),
    };
    let asked: Vec<u32> = (0..INPUTS).map(asked).collect();
    let pairs = black_box(Patched::pairs as fn(&Patched, u32) -> usize);
    bench.row(
        "windows_pairs",
        &asked,
        |n| rattle::pairs(port.state, *n),
        |n| pairs(&history, *n),
    );
}

/// 10,000 pops from 31,000 hurdles, which are put back while no clock runs.
fn pop_rows(bench: &mut Bench) {
    let hurdles = calm(1, BOX_HURDLES);
    let (port, kept) = windows(&BOX_TARGETS, &hurdles);
    let (mut state, mut history) = (port.state, windows(&BOX_TARGETS, &hurdles).1);
    let set_back = |history: &mut Patched| {
        history.hurdles.clone_from(&kept.hurdles);
        for (depth, kept) in history.depths.iter_mut().zip(&kept.depths) {
            depth.pairs.clone_from(&kept.pairs);
        }
    };
    type Pops = (
        &'static str,
        extern "C" fn(rattle::State) -> rattle::UpdateFields,
        fn(&mut Patched),
    );
    let rows: [Pops; 2] = [
        ("pop_back_11_targets", rattle::pop_back, Patched::pop_back),
        (
            "pop_front_11_targets",
            rattle::pop_front,
            Patched::pop_front,
        ),
    ];
    for (name, ours, theirs) in black_box(rows) {
        bench.row_of_runs(
            name,
            &[(); 10_000],
            (
                &mut state,
                |state| *state = port.state,
                |state, _| *state = ours(*state).state,
            ),
            (&mut history, set_back, |history, _| theirs(history)),
        );
    }
}

/// A block comes and the oldest goes, or one goes and an older comes: 31,000 are held. What the port
/// moves when it meets the end of its memory is in its time.
fn push_rows(bench: &mut Bench) {
    let (mut port, mut history) = windows(&BOX_TARGETS, &calm(1, BOX_HURDLES));
    let next = calm(2, 4_096);
    bench.row(
        "push_back_11_targets",
        &next,
        |hurdle| {
            port.push_back(*hurdle);
            port.state = rattle::pop_front(port.state).state;
        },
        |hurdle| {
            rust::push_back(&mut history, *hurdle);
            rust::pop_front(&mut history);
        },
    );
    bench.row(
        "push_front_11_targets",
        &next,
        |hurdle| {
            port.push_front(*hurdle);
            port.state = rattle::pop_back(port.state).state;
        },
        |hurdle| {
            rust::push_front(&mut history, *hurdle);
            rust::pop_back(&mut history);
        },
    );
    bench.row(
        "rebuild_31000",
        &[calm(3, BOX_HURDLES)],
        |from| port.rebuild(from),
        |from| rust::rebuild(&mut history, from),
    );
}

/// 31,000 pairs of target 6: at one level, and with a level of now that the windows before did not have.
fn rate_rows(bench: &mut Bench) {
    let length = length_for(6, BOX_HURDLES);
    let mut rng = Rng::new(1, "bench windows");
    let confidences: Vec<f64> = (0..32).map(|_| 0.9 + 0.1 * rng.fraction()).collect();
    let many: Vec<u64> = (0..length).map(|_| 9_500 + rng.below(1_000)).collect();
    let mut few = calm(4, length);
    for hurdle in few.iter_mut().rev().take(100) {
        *hurdle = 3_000_000 + rng.below(100_000);
    }
    for (name, hurdles) in [
        ("rate_sat_kvb_many_in_band", many),
        ("rate_sat_kvb_few_in_band", few),
    ] {
        let (mut port, history) = windows(&[6], &hurdles);
        bench.row(
            name,
            &confidences,
            |confidence| port.rate_sat_kvb(6, *confidence),
            |confidence| rust::rate_sat_kvb(&history, 6, *confidence),
        );
    }
}

fn list_rows(bench: &mut Bench) {
    let lists = |count: u64, length: u64| -> Vec<Vec<u64>> {
        (0..count).map(|seed| calm(5 + seed, length)).collect()
    };
    bench.row(
        "lower_median_126",
        &lists(INPUTS as u64 / 126, 126),
        |list| rattle::lower_median(list),
        |list| rust::lower_median(list),
    );
    for (name, lists) in [
        ("log_quantile_200", lists(INPUTS as u64 / 200, 200)),
        ("log_quantile_31000", lists(8, BOX_HURDLES)),
    ] {
        bench.row_of_copies(
            name,
            (&lists, |list| rattle::log_quantile(list, 0.95)),
            (&lists, |list| rust::log_quantile(list, 0.95)),
        );
    }
}

pub fn rows(bench: &mut Bench) {
    number_rows(bench);
    opening_row(bench);
    pairs_row(bench);
    pop_rows(bench);
    push_rows(bench);
    rate_rows(bench);
    list_rows(bench);
}
