//! Part `capacity`: bucket edges, capacity, projected inflow, the capacity search and the percentile
//! of fee_est.rs. No stand-in concerns them, so that a difference with either Rust fails the run.

use super::Part;
use crate::bench::{Bench, INPUTS, row};
use crate::check::{Function, Job, Plan};
use crate::lent::{Lent, RateFields, lend};
use crate::replay::Replay;
use crate::rng::Rng;
use crate::values::{around_word, boundary_words};
use crate::words::{Input, Word, Words};
use patched_mempool::fee_est as patched;
use patched_mempool::fee_est::{
    FEE_BUCKET_EDGES_SAT_PER_KVB, FLOW_BUCKET_EDGE_COUNT, INFLOW_HORIZON_CAP_SECS,
};
use std::collections::HashMap;
use std::hint::black_box;
use upstream_mempool::fee_est as upstream;

type Edges = [u64; FLOW_BUCKET_EDGE_COUNT];
/// A sum for each bucket, and 0 past the last.
const SUFFIX_COUNT: usize = FLOW_BUCKET_EDGE_COUNT + 2;
type Suffix = [u64; SUFFIX_COUNT];

/// The functions of the Rattle crate `exports`. They only read what is behind a `&[u64]`.
mod rattle {
    use super::{Edges, RateFields, Suffix};

    unsafe extern "C" {
        #[link_name = "juleyomu_bucket_index"]
        pub safe fn bucket_index(rate: u64) -> usize;
        #[link_name = "juleyomu_first_bucket_above"]
        pub safe fn first_bucket_above(rate: u64) -> usize;
        #[link_name = "juleyomu_bucket_count"]
        pub safe fn bucket_count() -> usize;
        #[link_name = "juleyomu_capacity_wu"]
        pub safe fn capacity_wu(n: u32) -> u64;
        #[link_name = "juleyomu_horizon_secs"]
        pub safe fn horizon_secs(n: u32) -> u64;
        #[link_name = "juleyomu_inflow_horizon_secs"]
        pub safe fn inflow_horizon_secs(n: u32) -> u64;
        #[link_name = "juleyomu_effective_capacity_wu"]
        pub safe fn effective_capacity_wu(n: u32) -> u64;
        #[link_name = "juleyomu_inclusion_confidence"]
        pub safe fn inclusion_confidence(n: u32) -> f64;
        #[link_name = "juleyomu_flow_bucket_edges"]
        pub safe fn flow_bucket_edges(out: &mut Edges);
        #[link_name = "juleyomu_default_candidate_rates"]
        pub safe fn default_candidate_rates(out: &mut Edges);
        #[link_name = "juleyomu_fine_candidate_rates"]
        pub safe fn fine_candidate_rates(out: &mut Edges);
        fn juleyomu_inflow_suffix_wu(
            inflow: *const u64,
            inflow_len: usize,
            secs: u64,
            out: &mut Suffix,
        );
        fn juleyomu_min_rate_for_capacity(
            candidates: *const u64,
            candidates_len: usize,
            stock: *const u64,
            stock_len: usize,
            inflow: *const u64,
            inflow_len: usize,
            n: u32,
        ) -> RateFields;
        fn juleyomu_percentile_sat(v: *const u64, v_len: usize, pct: u8) -> RateFields;
    }

    pub fn inflow_suffix_wu(inflow: &[u64], secs: u64, out: &mut Suffix) {
        // SAFETY: pointer and length are one slice's.
        unsafe { juleyomu_inflow_suffix_wu(inflow.as_ptr(), inflow.len(), secs, out) }
    }

    pub fn min_rate_for_capacity(
        candidates: &[u64],
        stock: &[u64],
        inflow: &[u64],
        n: u32,
    ) -> RateFields {
        // SAFETY: each pointer and length are one slice's.
        unsafe {
            juleyomu_min_rate_for_capacity(
                candidates.as_ptr(),
                candidates.len(),
                stock.as_ptr(),
                stock.len(),
                inflow.as_ptr(),
                inflow.len(),
                n,
            )
        }
    }

    pub fn percentile_sat(v: &[u64], pct: u8) -> RateFields {
        // SAFETY: pointer and length are one slice's.
        unsafe { juleyomu_percentile_sat(v.as_ptr(), v.len(), pct) }
    }
}

/// The Rust as it is timed: never inlined, so that both sides pay for a call.
mod rust {
    use super::{Edges, FEE_BUCKET_EDGES_SAT_PER_KVB, patched};
    use std::cell::Cell;

    /// The Rust works the edges out while it is compiled, and reads the constant.
    #[inline(never)]
    pub extern "C" fn flow_bucket_edges(out: &mut Edges) {
        *out = FEE_BUCKET_EDGES_SAT_PER_KVB;
    }

    #[inline(never)]
    pub fn inflow_suffix_wu(inflow: &[u64], secs: u64) -> Vec<u64> {
        patched::inflow_suffix_wu(inflow, secs)
    }

    /// The callback is asked once for each candidate, in their order: it only has to count.
    #[inline(never)]
    pub fn min_rate_for_capacity(
        candidates: &[u64],
        stock: &[u64],
        inflow: &[u64],
        n: u32,
    ) -> Option<u64> {
        let asked = Cell::new(0);
        let stock_above = |_| stock[asked.replace(asked.get() + 1)];
        patched::min_rate_for_capacity(stock_above, inflow, n, candidates)
    }

    #[inline(never)]
    pub fn percentile_sat(v: Vec<u64>, pct: u8) -> Option<u64> {
        patched::percentile_sat(v, pct)
    }
}

/// A function of one number that has the same name on every side.
macro_rules! function {
    ($name:ident) => {
        Function::new(
            stringify!($name),
            |&n| rattle::$name(n),
            |&n| patched::$name(n),
        )
        .same_upstream(|&n| upstream::$name(n))
    };
}

/// A table that the Rattle side writes into a lent array.
macro_rules! table {
    ($name:ident) => {
        Function::new(
            stringify!($name),
            |_| {
                let mut out = [u64::MAX; FLOW_BUCKET_EDGE_COUNT];
                rattle::$name(&mut out);
                out.to_vec()
            },
            |_| patched::$name().to_vec(),
        )
        .same_upstream(|_| upstream::$name().to_vec())
    };
}

const BUCKET_INDEX: Function<u64, usize> = function!(bucket_index);
const FIRST_BUCKET_ABOVE: Function<u64, usize> = function!(first_bucket_above);
const BUCKET_COUNT: Function<(), usize> = Function::new(
    "bucket_count",
    |_| rattle::bucket_count(),
    |_| patched::bucket_count(),
)
.same_upstream(|_| upstream::bucket_count());
const CAPACITY_WU: Function<u32, u64> = function!(capacity_wu);
const HORIZON_SECS: Function<u32, u64> = function!(horizon_secs);
const INFLOW_HORIZON_SECS: Function<u32, u64> = function!(inflow_horizon_secs);
const EFFECTIVE_CAPACITY_WU: Function<u32, u64> = function!(effective_capacity_wu);
const INCLUSION_CONFIDENCE: Function<u32, f64> = function!(inclusion_confidence);
const FLOW_BUCKET_EDGES: Function<(), Vec<u64>> = table!(flow_bucket_edges);
const DEFAULT_CANDIDATE_RATES: Function<(), Vec<u64>> = table!(default_candidate_rates);
const FINE_CANDIDATE_RATES: Function<(), Vec<u64>> = table!(fine_candidate_rates);

/// The functions of a rate.
const RATE_FUNCTIONS: [Function<u64, usize>; 2] = [BUCKET_INDEX, FIRST_BUCKET_ABOVE];

/// The functions of a number of blocks with a word as result.
const BLOCK_FUNCTIONS: [Function<u32, u64>; 4] = [
    CAPACITY_WU,
    HORIZON_SECS,
    INFLOW_HORIZON_SECS,
    EFFECTIVE_CAPACITY_WU,
];

const TABLES: [Function<(), Vec<u64>>; 3] = [
    FLOW_BUCKET_EDGES,
    DEFAULT_CANDIDATE_RATES,
    FINE_CANDIDATE_RATES,
];

/// The horizon and the inflow of each bucket.
type Flow = (u64, Vec<u64>);

const INFLOW_SUFFIX_WU: Function<Flow, Lent<Vec<u64>>> = Function::new(
    "inflow_suffix_wu",
    |(secs, inflow)| {
        lend([inflow], |[inflow]| {
            let mut out = [u64::MAX; SUFFIX_COUNT];
            rattle::inflow_suffix_wu(inflow, *secs, &mut out);
            out.to_vec()
        })
    },
    |(secs, inflow)| padded(patched::inflow_suffix_wu(inflow, *secs)).into(),
)
.same_upstream(|(secs, inflow)| padded(upstream::inflow_suffix_wu(inflow, *secs)).into());

/// The port's suffix sums have one length, and are 0 past the Rust's end.
fn padded(mut sums: Vec<u64>) -> Vec<u64> {
    sums.resize(sums.len().max(SUFFIX_COUNT), 0);
    sums
}

/// What the capacity search is given.
#[derive(Clone)]
struct Search {
    n: u32,
    candidates: Vec<u64>,
    stock: Vec<u64>,
    inflow: Vec<u64>,
}

impl Search {
    fn paired(&self) -> bool {
        self.candidates.len() == self.stock.len()
    }

    fn pairs(&self) -> impl Iterator<Item = (u64, u64)> {
        self.candidates
            .iter()
            .copied()
            .zip(self.stock.iter().copied())
    }

    /// The stock of each candidate, if equal candidates have equal stocks.
    fn stock_above(&self) -> Option<HashMap<u64, u64>> {
        let mut stock_above = HashMap::new();
        let same = self
            .pairs()
            .all(|(rate, stock)| *stock_above.entry(rate).or_insert(stock) == stock);
        (same && self.paired()).then_some(stock_above)
    }

    fn rattle(&self) -> Lent<RateFields> {
        lend(
            [&self.candidates, &self.stock, &self.inflow],
            |[candidates, stock, inflow]| {
                rattle::min_rate_for_capacity(candidates, stock, inflow, self.n)
            },
        )
    }
}

impl Words for Search {
    fn write(&self, out: &mut Vec<Word>) {
        self.n.write(out);
        self.candidates.write(out);
        self.stock.write(out);
        self.inflow.write(out);
    }
}

impl Input for Search {
    /// Candidates keep their stocks. Lists of different lengths shrink each by itself.
    fn smaller(&self) -> Vec<Search> {
        let Search { n, inflow, .. } = self;
        let rest = (*n, inflow.clone());
        if self.paired() {
            let all = (self.pairs().collect::<Vec<_>>(), rest).smaller();
            return all
                .into_iter()
                .map(|(pairs, (n, inflow))| search(n, pairs, inflow))
                .collect();
        }
        let all = (self.candidates.clone(), self.stock.clone(), rest).smaller();
        all.into_iter()
            .map(|(candidates, stock, (n, inflow))| Search {
                n,
                candidates,
                stock,
                inflow,
            })
            .collect()
    }
}

fn search(n: u32, pairs: Vec<(u64, u64)>, inflow: Vec<u64>) -> Search {
    let (candidates, stock) = pairs.into_iter().unzip();
    Search {
        n,
        candidates,
        stock,
        inflow,
    }
}

/// The search on a Rust side. The stock is a function of the candidate.
macro_rules! search_of {
    ($side:ident) => {
        |search| {
            let stock = search.stock_above().unwrap_or_default();
            let rate = $side::min_rate_for_capacity(
                |rate| stock[&rate],
                &search.inflow,
                search.n,
                &search.candidates,
            );
            RateFields::from(rate).into()
        }
    };
}

/// Equal candidates have equal stocks, as in the Rust.
const MIN_RATE_FOR_CAPACITY: Function<Search, Lent<RateFields>> =
    Function::new("min_rate_for_capacity", Search::rattle, search_of!(patched))
        .within(|search| search.stock_above().is_some())
        .same_upstream(search_of!(upstream));

/// Any stocks. The Rust's callback cannot tell equal candidates apart, so the answer is that of
/// `filtered_least`, which is written after the Rust.
const MIN_RATE_OF_PAIRS: Function<Search, Lent<RateFields>> =
    Function::new(MIN_RATE_FOR_CAPACITY.name, Search::rattle, |search| {
        RateFields::from(filtered_least(search)).into()
    })
    .within(Search::paired);

/// Refused by the port; the Rust has no such case.
const MIN_RATE_OF_UNEQUAL_LENGTHS: Function<Search, Lent<RateFields>> =
    Function::new(MIN_RATE_FOR_CAPACITY.name, Search::rattle, |_| {
        RateFields::refused(1).into()
    })
    .within(|search| !search.paired());

/// What the search holds a candidate's stock against.
struct Projection {
    capacity: u64,
    lambda: f64,
    suffix: Vec<u64>,
}

impl Projection {
    fn new(n: u32, inflow: &[u64]) -> Projection {
        Projection {
            capacity: patched::effective_capacity_wu(n),
            lambda: patched::lambda_mult(patched::inclusion_confidence(n)),
            suffix: patched::inflow_suffix_wu(inflow, patched::inflow_horizon_secs(n)),
        }
    }

    fn stressed(&self, rate: u64) -> u64 {
        let last = self.suffix.len().saturating_sub(1);
        let first = patched::first_bucket_above(rate).min(last);
        (self.suffix[first] as f64 * self.lambda).round() as u64
    }

    fn fits(&self, rate: u64, stock: u64) -> bool {
        stock.saturating_add(self.stressed(rate)) <= self.capacity
    }
}

/// The Rust's `min_rate_for_capacity` over pairs: those that fit, and of them the least.
fn filtered_least(search: &Search) -> Option<u64> {
    let projection = Projection::new(search.n, &search.inflow);
    search
        .pairs()
        .filter(|(rate, stock)| projection.fits(*rate, *stock))
        .map(|(rate, _)| rate)
        .min()
}

/// The percentile and the list.
type Share = (u8, Vec<u64>);

const PERCENTILE_SAT: Function<Share, Lent<RateFields>> = Function::new(
    "percentile_sat",
    |(pct, list)| lend([list], |[list]| rattle::percentile_sat(list, *pct)),
    |(pct, list)| RateFields::from(patched::percentile_sat(list.clone(), *pct)).into(),
)
.same_upstream(|(pct, list)| RateFields::from(upstream::percentile_sat(list.clone(), *pct)).into());

const INFLOW_LENGTHS: [usize; 6] = [0, 1, 401, 402, 403, 1_000];

/// A rate next to an edge, one that the edges span, or any.
fn draw_rate(rng: &mut Rng) -> u64 {
    match rng.below(4) {
        0 => {
            let edge = rng.pick(&FEE_BUCKET_EDGES_SAT_PER_KVB);
            near(rng, edge)
        }
        1 => rng.of_any_length(),
        _ => rng.below(1_100_000),
    }
}

/// At most 2 away.
fn near(rng: &mut Rng, word: u64) -> u64 {
    word.wrapping_add(rng.below(5)).wrapping_sub(2)
}

/// 0, 1, 2, or any number of blocks.
fn draw_blocks(rng: &mut Rng) -> u32 {
    match rng.below(4) {
        0 => {
            let bits = rng.below(33) as u32;
            rng.of_bits(bits) as u32
        }
        n => n as u32 - 1,
    }
}

/// Inflows of which some sums fit a capacity, or some products or sums pass a word.
fn draw_inflow(rng: &mut Rng, secs: u64) -> Vec<u64> {
    let length = match rng.below(8) {
        0 => rng.below(420) as usize,
        _ => rng.pick(&INFLOW_LENGTHS),
    };
    let most = u64::MAX / secs.max(1);
    let kind = rng.below(6);
    let draw = |_| match kind {
        0 => rng.below(20),
        1 => rng.of_any_length(),
        2 => near(rng, most / length.max(1) as u64),
        3 if rng.below(50) == 0 => near(rng, most),
        4 if rng.below(50) == 0 => rng.below(10_000),
        5 => u64::MAX,
        _ => 0,
    };
    (0..length).map(draw).collect()
}

fn draw_flow(rng: &mut Rng) -> Flow {
    let secs = match rng.below(4) {
        0 => rng.of_any_length(),
        1 => rng.below(3),
        _ => INFLOW_HORIZON_CAP_SECS,
    };
    (secs, draw_inflow(rng, secs))
}

/// The default ladder, or up to 500 rates in any order with repeats.
fn draw_candidates(rng: &mut Rng) -> Vec<u64> {
    if rng.below(8) == 0 {
        return patched::default_candidate_rates();
    }
    let length = match rng.below(4) {
        0 => rng.below(4),
        1 => rng.below(30),
        _ => rng.below(501),
    };
    let different = 1 + rng.below(length.max(1));
    let rates: Vec<u64> = (0..different).map(|_| draw_rate(rng)).collect();
    (0..length).map(|_| rng.pick(&rates)).collect()
}

/// Stocks next to what fits, so that the answer turns on one unit of weight. Of 100 stocks `fitting` are
/// drawn to fit, and do where the inflow alone does.
fn draw_stocks(
    rng: &mut Rng,
    fitting: u64,
    n: u32,
    candidates: Vec<u64>,
    inflow: Vec<u64>,
) -> Search {
    let projection = Projection::new(n, &inflow);
    let pair = |rate| {
        let room = projection
            .capacity
            .saturating_sub(projection.stressed(rate));
        let apart = match rng.below(4) {
            0 => rng.of_any_length(),
            _ => rng.below(3),
        };
        let stock = if rng.below(100) < fitting {
            room.saturating_sub(apart)
        } else {
            room.saturating_add(1).saturating_add(apart)
        };
        (rate, stock)
    };
    let pairs = candidates.into_iter().map(pair).collect();
    search(n, pairs, inflow)
}

fn draw_pairs(rng: &mut Rng) -> Search {
    let n = draw_blocks(rng);
    let inflow = draw_inflow(rng, patched::inflow_horizon_secs(n));
    let candidates = draw_candidates(rng);
    let fitting = rng.pick(&[0, 1, 8, 50, 100]);
    draw_stocks(rng, fitting, n, candidates, inflow)
}

fn draw_search(rng: &mut Rng) -> Search {
    equal_stocks(draw_pairs(rng))
}

/// The first stock of a rate becomes the stock of all its places.
fn equal_stocks(mut search: Search) -> Search {
    let mut first = HashMap::new();
    for (rate, stock) in search.candidates.iter().zip(&mut search.stock) {
        *stock = *first.entry(*rate).or_insert(*stock);
    }
    search
}

fn draw_unequal_lengths(rng: &mut Rng) -> Search {
    let search = draw_pairs(rng);
    shortened(rng, search)
}

/// One list shorter than the other by some places, often by one.
fn shortened(rng: &mut Rng, mut search: Search) -> Search {
    let Search {
        candidates, stock, ..
    } = &mut search;
    let left = match rng.below(3) {
        0 => 0,
        1 => candidates.len().saturating_sub(1),
        _ => rng.below(candidates.len().max(1) as u64) as usize,
    };
    if candidates.is_empty() {
        stock.push(rng.of_any_length());
    } else if rng.below(2) == 0 {
        candidates.truncate(left);
    } else {
        stock.truncate(left);
    }
    search
}

/// A list of rates, with repeats, or with both ends of the range.
fn draw_list(rng: &mut Rng, length: u64) -> Vec<u64> {
    let kind = rng.below(5);
    let draw = |_| match kind {
        0 => rng.below(4),
        1 => rng.below(1_000_000),
        2 => rng.of_any_length(),
        3 => rng.pick(&[0, 1, 1 << 63, u64::MAX - 1, u64::MAX]),
        _ => u64::MAX - rng.below(length.max(1)),
    };
    let mut list: Vec<u64> = (0..length).map(draw).collect();
    match rng.below(4) {
        0 => list.sort_unstable(),
        1 => list.sort_unstable_by(|a, b| b.cmp(a)),
        _ => {}
    }
    list
}

fn draw_share(rng: &mut Rng) -> Share {
    let length = rng.below(201);
    (rng.of_bits(8) as u8, draw_list(rng, length))
}

/// Around each edge, and around each power of two.
fn boundary_rates() -> Vec<u64> {
    let edges = FEE_BUCKET_EDGES_SAT_PER_KVB.into_iter();
    let near_edges = edges.flat_map(|edge| around_word(edge, 1));
    near_edges.chain(boundary_words()).collect()
}

/// Around each power of two that is a number of blocks.
fn boundary_blocks() -> Vec<u32> {
    let words = boundary_words();
    words
        .into_iter()
        .filter_map(|word| word.try_into().ok())
        .collect()
}

/// Cases A to C, G and K of document 01.
mod document {
    use super::{Search, Share, search};

    pub const RATES: [u64; 7] = [0, 99, 100, 101, 102, 1_000_000, 1_000_001];
    pub const BLOCKS: [u32; 4] = [0, 1, 2, u32::MAX];

    pub fn shares() -> Vec<Share> {
        vec![(50, vec![1, 2, 3, 4]), (255, vec![1, 2, 3, 4])]
    }

    /// The stock that still fits beside an inflow in the open bucket, and the next.
    pub fn searches() -> Vec<Search> {
        let mut inflow = vec![0; 402];
        inflow[401] = 1;
        [3_198_800, 3_198_801]
            .map(|stock| search(1, vec![(1_000_000, stock)], inflow.clone()))
            .into()
    }
}

fn bucket_jobs(some: u64) -> Vec<Job> {
    let mut jobs = vec![Job::over(BUCKET_COUNT, [()])];
    for table in TABLES {
        jobs.push(Job::over(table, [()]));
    }
    for function in RATE_FUNCTIONS {
        jobs.push(Job::over(function, document::RATES));
        jobs.push(Job::over(function, (0..1_100_001_u32).map(u64::from)));
        jobs.push(Job::over(function, boundary_rates()));
        jobs.push(Job::random(function, some, draw_rate));
        jobs.push(Job::random(function, some, Rng::word));
    }
    jobs
}

fn block_jobs<A: Words + 'static>(function: Function<u32, A>, some: u64) -> [Job; 4] {
    [
        Job::over(function, document::BLOCKS),
        Job::over(function, 0..100_001_u32),
        Job::over(function, boundary_blocks()),
        Job::random(function, some, |rng| rng.of_bits(32) as u32),
    ]
}

fn search_jobs(some: u64) -> Vec<Job> {
    vec![
        Job::random(INFLOW_SUFFIX_WU, some, draw_flow),
        Job::over(MIN_RATE_FOR_CAPACITY, document::searches()),
        Job::random(MIN_RATE_FOR_CAPACITY, some, draw_search),
        Job::random(MIN_RATE_OF_PAIRS, some, draw_pairs),
        Job::random(MIN_RATE_OF_UNEQUAL_LENGTHS, some, draw_unequal_lengths),
    ]
}

/// Every length to 200 with every percentile, and random ones.
fn percentile_jobs(some: u64) -> Vec<Job> {
    let mut rng = Rng::new(0, "capacity every percentile");
    let every: Vec<Share> = (0..=200)
        .flat_map(|length| (0..=255).map(move |pct| (pct, length)))
        .map(|(pct, length)| (pct, draw_list(&mut rng, length)))
        .collect();
    vec![
        Job::over(PERCENTILE_SAT, document::shares()),
        Job::over(PERCENTILE_SAT, every),
        Job::random(PERCENTILE_SAT, some, draw_share),
    ]
}

fn ask_numbers(replay: &mut Replay) {
    replay.ask(&BUCKET_COUNT, [()]);
    for table in TABLES {
        replay.ask(&table, [()]);
    }
    for function in RATE_FUNCTIONS {
        replay.ask(&function, document::RATES);
        replay.ask(&function, [1 << 63, u64::MAX]);
        replay.ask_random(&function, 24, draw_rate);
    }
    for function in BLOCK_FUNCTIONS {
        replay.ask(&function, document::BLOCKS);
        replay.ask_random(&function, 4, |rng| rng.of_bits(32) as u32);
    }
    replay.ask(&INCLUSION_CONFIDENCE, document::BLOCKS);
}

/// Few candidates and inflows, since a question has all of them on its line. The rates lie about the
/// first seven edges, and the inflows fill about one block.
fn draw_short_pairs(rng: &mut Rng) -> Search {
    let n = draw_blocks(rng);
    let (count, length) = (rng.below(7), rng.below(7));
    let candidates = (0..count).map(|_| 99 + rng.below(17)).collect();
    let inflow = (0..length).map(|_| rng.below(600)).collect();
    draw_stocks(rng, 40, n, candidates, inflow)
}

fn ask_lists(replay: &mut Replay) {
    // No inflow; a product and a sum that pass a word; the last bucket, and a place past it.
    let saturating = vec![1, u64::MAX / 600 + 1, u64::MAX / 600, 7];
    let full = (0..403).map(|place| place * place + 1).collect();
    replay.ask(
        &INFLOW_SUFFIX_WU,
        [(600, vec![]), (600, saturating), (1, full)],
    );
    replay.ask(&MIN_RATE_FOR_CAPACITY, document::searches());
    replay.ask(&MIN_RATE_FOR_CAPACITY, [search(1, vec![], vec![])]);
    replay.ask_random(&MIN_RATE_FOR_CAPACITY, 24, |rng| {
        equal_stocks(draw_short_pairs(rng))
    });
    replay.ask_random(&MIN_RATE_OF_PAIRS, 24, draw_short_pairs);
    replay.ask_random(&MIN_RATE_OF_UNEQUAL_LENGTHS, 8, |rng| {
        let search = draw_short_pairs(rng);
        shortened(rng, search)
    });
    replay.ask(&PERCENTILE_SAT, document::shares());
    replay.ask(&PERCENTILE_SAT, [(50, vec![])]);
    replay.ask_random(&PERCENTILE_SAT, 48, |rng| {
        let length = rng.below(12);
        (rng.below(128) as u8, draw_list(rng, length))
    });
}

/// Rates as they come: as many from each bucket as from the next.
fn draw_market_rate(rng: &mut Rng) -> u64 {
    let bucket = rng.below(FLOW_BUCKET_EDGE_COUNT as u64 - 1) as usize;
    let (low, high) = (
        FEE_BUCKET_EDGES_SAT_PER_KVB[bucket],
        FEE_BUCKET_EDGES_SAT_PER_KVB[bucket + 1],
    );
    low + rng.below(high - low)
}

fn draw_market_inflow(rng: &mut Rng) -> Vec<u64> {
    let buckets = 0..patched::bucket_count();
    buckets.map(|_| rng.below(20)).collect()
}

/// The default ladder above a pool of some blocks: the stock falls as the rate rises.
fn draw_market_search(rng: &mut Rng) -> Search {
    let n = rng.pick(&[1, 2, 3, 6, 12, 144]);
    let top = rng.below(600_000_000);
    let stock = |(place, rate)| (rate, top / (1 + place as u64));
    let ladder = patched::default_candidate_rates();
    let pairs = ladder.into_iter().enumerate().map(stock).collect();
    search(n, pairs, draw_market_inflow(rng))
}

fn bench_inputs<I>(count: usize, draw: fn(&mut Rng) -> I) -> Vec<I> {
    let mut rng = Rng::new(1, "bench capacity");
    (0..count).map(|_| draw(&mut rng)).collect()
}

/// How many blocks a quoter asks for.
fn draw_asked_blocks(rng: &mut Rng) -> u32 {
    1 + rng.below(1_100) as u32
}

fn number_rows(bench: &mut Bench) {
    let rates = bench_inputs(INPUTS, draw_market_rate);
    row!(bench, &rates, bucket_index(rate), patched::bucket_index);
    row!(
        bench,
        &rates,
        first_bucket_above(rate),
        patched::first_bucket_above
    );
    row!(bench, &[(); INPUTS], bucket_count(), patched::bucket_count);
    let blocks = bench_inputs(INPUTS, draw_asked_blocks);
    row!(bench, &blocks, capacity_wu(n), patched::capacity_wu);
    row!(bench, &blocks, horizon_secs(n), patched::horizon_secs);
    row!(
        bench,
        &blocks,
        inflow_horizon_secs(n),
        patched::inflow_horizon_secs
    );
    row!(
        bench,
        &blocks,
        effective_capacity_wu(n),
        patched::effective_capacity_wu
    );
    row!(
        bench,
        &blocks,
        inclusion_confidence(n),
        patched::inclusion_confidence
    );
}

fn table_rows(bench: &mut Bench) {
    const CALLS: [(); 1_000] = [(); 1_000];
    let side = |function: extern "C" fn(&mut Edges)| {
        let function = black_box(function);
        let mut out = [0; FLOW_BUCKET_EDGE_COUNT];
        move |&(): &()| {
            function(&mut out);
            black_box(&out)[0]
        }
    };
    bench.row(
        "flow_bucket_edges",
        &CALLS,
        side(rattle::flow_bucket_edges),
        side(rust::flow_bucket_edges),
    );
    // The Rust allocates its list, and the Rattle writes into a lent array.
    let list = |function: fn() -> Vec<u64>| {
        let function = black_box(function);
        move |&(): &()| function()
    };
    bench.row(
        "default_candidate_rates",
        &CALLS,
        side(rattle::default_candidate_rates),
        list(patched::default_candidate_rates),
    );
    bench.row(
        "fine_candidate_rates",
        &CALLS,
        side(rattle::fine_candidate_rates),
        list(patched::fine_candidate_rates),
    );
}

pub struct Capacity;

impl Part for Capacity {
    fn name(&self) -> &'static str {
        "capacity"
    }

    fn jobs(&self, plan: &Plan) -> Vec<Job> {
        let mut jobs = bucket_jobs(plan.scaled(1_000_000));
        for function in BLOCK_FUNCTIONS {
            jobs.extend(block_jobs(function, plan.scaled(1_000_000)));
        }
        jobs.extend(block_jobs(INCLUSION_CONFIDENCE, plan.scaled(1_000_000)));
        jobs.extend(search_jobs(plan.scaled(150_000)));
        jobs.extend(percentile_jobs(plan.scaled(1_000_000)));
        jobs
    }

    fn replay(&self, replay: &mut Replay) {
        ask_numbers(replay);
        ask_lists(replay);
    }

    fn bench(&self, bench: &mut Bench) {
        number_rows(bench);
        table_rows(bench);
        // The Rust allocates its sums, and the Rattle writes into a lent array.
        let mut sums = [0; SUFFIX_COUNT];
        bench.row(
            "inflow_suffix_wu",
            &bench_inputs(INPUTS / 402, draw_market_inflow),
            |inflow| {
                rattle::inflow_suffix_wu(inflow, INFLOW_HORIZON_CAP_SECS, &mut sums);
                black_box(&sums)[0]
            },
            |inflow| rust::inflow_suffix_wu(inflow, INFLOW_HORIZON_CAP_SECS),
        );
        bench.row(
            "min_rate_for_capacity_401",
            &bench_inputs(INPUTS / 401, draw_market_search),
            |of| rattle::min_rate_for_capacity(&of.candidates, &of.stock, &of.inflow, of.n),
            |of| rust::min_rate_for_capacity(&of.candidates, &of.stock, &of.inflow, of.n),
        );
        bench.row_by_value(
            "percentile_sat_1000",
            &bench_inputs(INPUTS / 1_000, |rng| {
                let pct = rng.pick(&[10, 25, 50, 75, 90]);
                let rates = (0..1_000).map(|_| draw_market_rate(rng));
                (pct, rates.collect::<Vec<u64>>())
            }),
            |(pct, list)| rattle::percentile_sat(list, *pct),
            |(pct, list)| rust::percentile_sat(list, pct),
        );
    }
}

#[cfg(test)]
mod tests {
    use super::*;

    #[test]
    fn the_rust_answers_document_01() {
        assert_eq!([0, 99, 101].map(patched::bucket_index), [0; 3]);
        assert_eq!(
            [102, 1_000_000, 1_000_001].map(patched::bucket_index),
            [1, 400, 401]
        );
        assert_eq!(
            [0, 100, 1_000_000, 1_000_001].map(patched::first_bucket_above),
            [0, 1, 401, 402]
        );
        assert_eq!(
            [0, 2, u32::MAX].map(patched::effective_capacity_wu),
            [3_200_000, 7_600_000, 16_320_875_721_000_000]
        );
        let found = |rate| RateFields::from(Some(rate));
        let of_shares = document::shares();
        let of_shares = of_shares
            .iter()
            .map(|share| (PERCENTILE_SAT.patched)(share).answer);
        assert!(of_shares.eq([found(2), found(4)]));
        let of_searches = document::searches();
        let of_searches = of_searches
            .iter()
            .map(|search| (MIN_RATE_FOR_CAPACITY.patched)(search).answer);
        assert!(of_searches.eq([found(1_000_000), RateFields::from(None)]));
    }

    #[test]
    fn the_model_over_pairs_is_the_rust() {
        let mut rng = Rng::new(1, "model");
        for _ in 0..300 {
            let search = draw_search(&mut rng);
            let rust = (MIN_RATE_FOR_CAPACITY.patched)(&search).answer;
            assert_eq!(rust, RateFields::from(filtered_least(&search)));
        }
    }

    #[test]
    fn searches_are_of_every_kind() {
        let mut rng = Rng::new(1, "kinds");
        let (mut none, mut least, mut later, mut back) = (0, 0, 0, 0);
        for _ in 0..1_000 {
            let search = draw_search(&mut rng);
            let projection = Projection::new(search.n, &search.inflow);
            let mut pairs: Vec<(u64, u64)> = search.pairs().collect();
            pairs.sort_unstable();
            let fits: Vec<bool> = pairs.iter().map(|&(r, s)| projection.fits(r, s)).collect();
            match fits.iter().position(|fits| *fits) {
                None => none += 1,
                Some(0) => least += 1,
                Some(_) => later += 1,
            }
            // A larger candidate that does not fit.
            back += usize::from(fits.windows(2).any(|pair| pair == [true, false]));
        }
        assert!(
            [none, least, later, back].iter().all(|count| *count > 100),
            "{none} none, {least} least, {later} later, {back} not monotone"
        );
    }
}
