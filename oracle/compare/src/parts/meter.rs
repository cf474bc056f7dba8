//! Part `meter`: the fee flow meter, call by call. After each call everything that the Rust shows of
//! its meter is compared: the answer, the rates, the total and the decay clock. The admit clock, which
//! the Rust keeps to itself, shows through later admissions.
//!
//! The Rust measures time by `Instant`, the port by a number of nanoseconds. Here the number t stands
//! for the `Instant` of the program's start plus t nanoseconds. An `Instant` of Linux counts seconds
//! in 64 bits, so that it holds every one of them, the largest u64 too.

use super::Part;
use crate::bench::{Bench, INPUTS, row};
use crate::check::{Function, Job, Plan};
use crate::replay::Replay;
use crate::rng::Rng;
use crate::values::{around_word, pairs, special_floats};
use crate::words::{Input, Word, Words};
use patched_mempool::fee_est::{FEE_BUCKET_EDGES_SAT_PER_KVB, bucket_count};
use std::f64::consts::LN_2;
use std::hint::black_box;
use std::sync::OnceLock;
use std::time::{Duration, Instant};

const BUCKETS: usize = 402;

/// The port's meter.
#[repr(C)]
#[derive(Clone)]
pub struct RattleMeter {
    admit_wu_s: [f64; BUCKETS],
    admitted_wu: f64,
    last: u64,
    last_admit: u64,
}

#[repr(C)]
pub struct AdmitRates {
    wu_s: [u64; BUCKETS],
}

/// The functions of the Rattle crate `exports`. Each touches the meter that it is lent and nothing
/// else, so that any call is safe.
mod rattle {
    use super::{AdmitRates, RattleMeter};

    unsafe extern "C" {
        #[link_name = "juleyomu_admit_half_life_secs"]
        pub safe fn admit_half_life_secs() -> f64;
        #[link_name = "juleyomu_flow_full_wu"]
        pub safe fn flow_full_wu() -> f64;
        #[link_name = "juleyomu_fee_flow_meter"]
        pub safe fn fee_flow_meter(now: u64) -> RattleMeter;
        #[link_name = "juleyomu_fullness"]
        pub safe fn fullness(m: &mut RattleMeter, now: u64) -> f64;
        #[link_name = "juleyomu_admit_rates_wu_s"]
        pub safe fn admit_rates_wu_s(m: &mut RattleMeter, now: u64) -> AdmitRates;
        #[link_name = "juleyomu_note_admit"]
        pub safe fn note_admit(m: &mut RattleMeter, weight_wu: u64, rate: u64, now: u64);
    }
}

/// The Rust as it is timed: never inlined, so that both sides pay for a call.
mod rust {
    use patched_mempool::fee_flow;

    #[inline(never)]
    pub extern "C" fn admit_half_life_secs() -> f64 {
        fee_flow::ADMIT_HALF_LIFE_SECS
    }

    #[inline(never)]
    pub extern "C" fn flow_full_wu() -> f64 {
        fee_flow::flow_full_wu()
    }
}

/// The clock t as an `Instant`.
fn at(t: u64) -> Instant {
    static START: OnceLock<Instant> = OnceLock::new();
    *START.get_or_init(Instant::now) + Duration::from_nanos(t)
}

/// One meter of either side.
trait Meter {
    fn open(opening: &Opening) -> Self;
    fn fullness(&mut self, now: u64) -> f64;
    fn admit_rates_wu_s(&mut self, now: u64) -> Vec<u64>;
    fn note_admit(&mut self, weight_wu: u64, rate: u64, now: u64);
    fn state(&self) -> State;
}

impl Meter for RattleMeter {
    fn open(opening: &Opening) -> RattleMeter {
        let mut meter = rattle::fee_flow_meter(opening.last_admit);
        if let Some(held) = &opening.held {
            for (place, rate) in &held.rates {
                meter.admit_wu_s[*place as usize] = *rate;
            }
            meter.admitted_wu = held.total;
            meter.last = held.last;
        }
        meter
    }

    fn fullness(&mut self, now: u64) -> f64 {
        rattle::fullness(self, now)
    }

    fn admit_rates_wu_s(&mut self, now: u64) -> Vec<u64> {
        rattle::admit_rates_wu_s(self, now).wu_s.to_vec()
    }

    fn note_admit(&mut self, weight_wu: u64, rate: u64, now: u64) {
        rattle::note_admit(self, weight_wu, rate, now);
    }

    fn state(&self) -> State {
        State {
            rates: self.admit_wu_s.to_vec(),
            total: self.admitted_wu,
            last: at(self.last),
        }
    }
}

/// The same for a meter of the Rust.
macro_rules! rust_meter {
    ($meter:ty) => {
        impl Meter for $meter {
            fn open(opening: &Opening) -> $meter {
                let mut meter = <$meter>::new(at(opening.last_admit));
                if let Some(held) = &opening.held {
                    for (place, rate) in &held.rates {
                        meter.admit_wu_s[*place as usize] = *rate;
                    }
                    meter.admitted_wu = held.total;
                    meter.last = at(held.last);
                }
                meter
            }

            fn fullness(&mut self, now: u64) -> f64 {
                self.fullness(at(now))
            }

            fn admit_rates_wu_s(&mut self, now: u64) -> Vec<u64> {
                self.admit_rates_wu_s(at(now))
            }

            fn note_admit(&mut self, weight_wu: u64, rate: u64, now: u64) {
                self.note_admit(weight_wu, rate, at(now));
            }

            fn state(&self) -> State {
                State {
                    rates: self.admit_wu_s.clone(),
                    total: self.admitted_wu,
                    last: self.last,
                }
            }
        }
    };
}

type Patched = patched_mempool::fee_flow::FeeFlowMeter;
type Upstream = upstream_mempool::fee_flow::FeeFlowMeter;

rust_meter!(Patched);
rust_meter!(Upstream);

/// What a meter shows of itself.
struct State {
    rates: Vec<f64>,
    total: f64,
    last: Instant,
}

impl State {
    fn clock(&self) -> u64 {
        (self.last - at(0)).as_nanos() as u64
    }
}

/// The length of a list, and the place and the value of each element that is not 0, or +0.
fn write_sparse<T: Words + Copy>(list: &[T], out: &mut Vec<Word>) {
    list.len().write(out);
    for (place, element) in list.iter().enumerate() {
        let before = out.len();
        (place, *element).write(out);
        if out[before + 1].bits() == 0 {
            out.truncate(before);
        }
    }
}

impl Words for State {
    fn write(&self, out: &mut Vec<Word>) {
        write_sparse(&self.rates, out);
        (self.total, self.clock()).write(out);
    }
}

/// A new meter, whose fields may then be set to what no call leaves there.
#[derive(Clone)]
struct Opening {
    last_admit: u64,
    held: Option<Held>,
}

#[derive(Clone)]
struct Held {
    last: u64,
    total: f64,
    /// Bucket and rate; the other rates are 0.
    rates: Vec<(u32, f64)>,
}

impl Words for Held {
    fn write(&self, out: &mut Vec<Word>) {
        (self.last, self.total).write(out);
        self.rates.write(out);
    }
}

impl Input for Held {
    fn smaller(&self) -> Vec<Held> {
        let parts = (self.last, self.total, self.rates.clone()).smaller();
        let held = parts.into_iter();
        held.map(|(last, total, rates)| Held { last, total, rates })
            .collect()
    }
}

impl Words for Opening {
    fn write(&self, out: &mut Vec<Word>) {
        self.last_admit.write(out);
        self.held.write(out);
    }
}

impl Input for Opening {
    fn smaller(&self) -> Vec<Opening> {
        let parts = (self.last_admit, self.held.clone()).smaller();
        let openings = parts.into_iter();
        openings
            .map(|(last_admit, held)| Opening { last_admit, held })
            .collect()
    }
}

/// A read or an admission, at a clock.
#[derive(Clone)]
enum Call {
    Fullness(u64),
    Rates(u64),
    Note(u64, u64, u64),
}

impl Words for Call {
    fn write(&self, out: &mut Vec<Word>) {
        match *self {
            Call::Fullness(now) => (0_u64, now).write(out),
            Call::Rates(now) => (1_u64, now).write(out),
            Call::Note(weight, rate, now) => (2_u64, (weight, rate, now)).write(out),
        }
    }
}

impl Input for Call {
    fn smaller(&self) -> Vec<Call> {
        match *self {
            Call::Fullness(now) => now.smaller().into_iter().map(Call::Fullness).collect(),
            Call::Rates(now) => now.smaller().into_iter().map(Call::Rates).collect(),
            Call::Note(weight, rate, now) => (weight, rate, now)
                .smaller()
                .into_iter()
                .map(|(weight, rate, now)| Call::Note(weight, rate, now))
                .collect(),
        }
    }
}

/// What a call returned, and the meter after it.
struct After {
    answer: Option<f64>,
    rates: Option<Vec<u64>>,
    state: State,
}

impl Words for After {
    fn write(&self, out: &mut Vec<Word>) {
        self.answer.write(out);
        if let Some(rates) = &self.rates {
            write_sparse(rates, out);
        }
        self.state.write(out);
    }
}

type Case = (Opening, Vec<Call>);

fn run<M: Meter>((opening, calls): &Case) -> Vec<After> {
    let mut meter = M::open(opening);
    let call = |call: &Call| {
        let (mut answer, mut rates) = (None, None);
        match *call {
            Call::Fullness(now) => answer = Some(meter.fullness(now)),
            Call::Rates(now) => rates = Some(meter.admit_rates_wu_s(now)),
            Call::Note(weight, rate, now) => meter.note_admit(weight, rate, now),
        }
        After {
            answer,
            rates,
            state: meter.state(),
        }
    };
    calls.iter().map(call).collect()
}

/// One call on any meter.
const ONE_CALL: Function<Case, Vec<After>> =
    Function::new("one_call", run::<RattleMeter>, run::<Patched>)
        .upstream(run::<Upstream>, one_call_region);
/// Up to 23 calls on any meter.
const CALLS: Function<Case, Vec<After>> =
    Function::new("calls", run::<RattleMeter>, run::<Patched>);
/// Thousands of admissions, some five hundred of them between two reads.
const FLOW: Function<Flow, Vec<After>> = Function::new(
    "flow",
    |flow| run::<RattleMeter>(&flow.case()),
    |flow| run::<Patched>(&flow.case()),
);
/// The last read of such a flow, which may differ with the Rust as published.
const FLOW_FULLNESS: Function<Flow, f64> = Function::new(
    "flow_fullness",
    Flow::fullness::<RattleMeter>,
    Flow::fullness::<Patched>,
)
.upstream(Flow::fullness::<Upstream>, |_| "the last read");
const FLOW_RATES: Function<Flow, u64> = Function::new(
    "flow_rates",
    Flow::rates::<RattleMeter>,
    Flow::rates::<Patched>,
)
.upstream(
    |flow| flow.rates::<Upstream>(),
    |_| "the sum of the last read",
);
const ADMIT_HALF_LIFE_SECS: Function<(), f64> = Function::new(
    "admit_half_life_secs",
    |_| rattle::admit_half_life_secs(),
    |_| patched_mempool::fee_flow::ADMIT_HALF_LIFE_SECS,
)
.same_upstream(|_| upstream_mempool::fee_flow::ADMIT_HALF_LIFE_SECS);
const FLOW_FULL_WU: Function<(), f64> = Function::new(
    "flow_full_wu",
    |_| rattle::flow_full_wu(),
    |_| patched_mempool::fee_flow::flow_full_wu(),
)
.same_upstream(|_| upstream_mempool::fee_flow::flow_full_wu());

/// The longest time that the stand-in works out, 42.6 hours: the exponential's argument is at least -708.
const LONGEST_SECS: f64 = 708.0 * 150.0 / LN_2;

/// By the longest time that the call decays the meter over or takes its sample over.
fn one_call_region((opening, calls): &Case) -> &'static str {
    let last = match &opening.held {
        Some(held) => held.last,
        None => opening.last_admit,
    };
    let (read, gap) = match calls[0] {
        Call::Fullness(now) | Call::Rates(now) => (true, now.saturating_sub(last)),
        Call::Note(_, _, now) => (false, now.saturating_sub(last.min(opening.last_admit))),
    };
    match (read, gap as f64 / 1e9 <= LONGEST_SECS) {
        (true, _) if gap == 0 => "a read at no later clock",
        (true, true) => "a read within 42.6 hours",
        (false, true) => "an admission within 42.6 hours",
        (true, false) => "a read after longer",
        (false, false) => "an admission after longer",
    }
}

/// The gaps between clocks at which something changes: none, the least time of a sample, a second, the
/// end of the exponential's range, and what an f64 rounds.
fn gaps() -> Vec<u64> {
    let mut gaps = vec![0, 1, 2, 999, 1_000, u64::MAX - 1, u64::MAX];
    let edges = [
        1_000_000,
        999_999_999,
        150 * 1_000_000_000,
        (LONGEST_SECS * 1e9) as u64,
        1 << 53,
        1 << 63,
    ];
    gaps.extend(edges.iter().flat_map(|edge| around_word(*edge, 2)));
    gaps
}

/// Rates in every bucket, at its edge and beside it, and far above.
fn edge_rates() -> Vec<u64> {
    let edges = FEE_BUCKET_EDGES_SAT_PER_KVB.iter();
    let mut rates: Vec<u64> = edges.flat_map(|edge| around_word(*edge, 1)).collect();
    rates.extend([0, 1, 50, 1 << 32, 1 << 63, u64::MAX]);
    rates
}

/// Reads and admissions on a meter with two rates, a total and two clocks.
fn boundary_cases() -> Vec<Case> {
    let mut cases = Vec::new();
    let clocks = [0, 1, 1_000_000_000, 1 << 63, u64::MAX];
    let calls = |now| {
        [
            Call::Fullness(now),
            Call::Rates(now),
            Call::Note(1_000, 100_000, now),
            Call::Note(u64::MAX, 1_000_001, now),
        ]
    };
    for (start, gap) in pairs(&clocks, &gaps()) {
        for (last, last_admit) in [(start, start), (start, 0), (0, start), (start, u64::MAX)] {
            let held = Held {
                last,
                total: 1e6,
                rates: vec![(0, 12.5), (401, 1e9)],
            };
            let opening = Opening {
                last_admit,
                held: Some(held),
            };
            let later = calls(start.saturating_add(gap));
            let earlier = calls(start.saturating_sub(gap));
            let both = later.into_iter().chain(earlier);
            cases.extend(both.map(|call| (opening.clone(), vec![call])));
        }
    }
    cases
}

/// Every special float as a rate and as the total.
fn special_cases() -> Vec<Case> {
    let gaps = [0, 1, 1_000_000_000, 300_000_000_000, u64::MAX];
    let mut cases = Vec::new();
    for (x, gap) in pairs(&special_floats(), &gaps) {
        for scale in [1.0, 1e6, 2e6] {
            let held = Held {
                last: 0,
                total: x * scale,
                rates: vec![(0, x), (200, -x), (401, x * scale)],
            };
            let opening = Opening {
                last_admit: 0,
                held: Some(held),
            };
            for call in [
                Call::Fullness(gap),
                Call::Rates(gap),
                Call::Note(7, 0, gap),
                Call::Note(u64::MAX, u64::MAX, gap),
            ] {
                cases.push((opening.clone(), vec![call]));
            }
        }
    }
    cases
}

/// One admission to each bucket of a new meter, after a second.
fn bucket_cases() -> Vec<Case> {
    let opening = Opening {
        last_admit: 5,
        held: None,
    };
    let note = |rate| {
        (
            opening.clone(),
            vec![Call::Note(4_000, rate, 1_000_000_005)],
        )
    };
    edge_rates().into_iter().map(note).collect()
}

/// A new meter, an admission and a read some way on, and both again at the first clock.
fn clock_cases() -> Vec<Case> {
    let case = |(start, gap): (u64, u64)| {
        let opening = Opening {
            last_admit: start,
            held: None,
        };
        let later = start.saturating_add(gap);
        let calls = vec![
            Call::Note(1_000, 100_000, later),
            Call::Rates(later),
            Call::Note(7, 1_000_001, start),
            Call::Fullness(start),
        ];
        (opening, calls)
    };
    pairs(&[0, 1 << 40], &gaps())
        .into_iter()
        .map(case)
        .collect()
}

/// A clock some way on from another, at it, before it, or anywhere.
fn draw_clock(rng: &mut Rng, from: u64) -> u64 {
    let minute = 60_000_000_000;
    let step = match rng.below(16) {
        0 => return 0,
        1 => return u64::MAX,
        2 => return rng.of_any_length(),
        3 => return from,
        4 => return from.saturating_sub(rng.below(minute)),
        5 => rng.below(3),
        6 => 1_000_000 - 2 + rng.below(5),
        7 => rng.below(1_000_000),
        8..11 => rng.below(1_000_000_000),
        11..14 => rng.below(5 * minute),
        14 => rng.below(50 * 60 * minute),
        _ => rng.of_any_length(),
    };
    from.saturating_add(step)
}

fn draw_rate(rng: &mut Rng) -> u64 {
    match rng.below(8) {
        0 => rng.of_any_length(),
        1 => rng.below(200),
        2 => 1_000_000 + rng.below(3),
        _ => {
            let edge = rng.pick(&FEE_BUCKET_EDGES_SAT_PER_KVB);
            edge + rng.below(edge / 40 + 2) - 1
        }
    }
}

fn draw_weight(rng: &mut Rng) -> u64 {
    match rng.below(8) {
        0 => rng.of_any_length(),
        1 => rng.pick(&[0, 1, 4_000_000, u64::MAX]),
        _ => 400 + rng.below(400_000),
    }
}

fn draw_call(rng: &mut Rng, clock: &mut u64) -> Call {
    let now = draw_clock(rng, *clock);
    // A far clock is left again at times, or all that follows would lie before it.
    if now < 1 << 62 || rng.below(4) == 0 {
        *clock = now;
    }
    match rng.below(4) {
        0 => Call::Fullness(now),
        1 => Call::Rates(now),
        _ => Call::Note(draw_weight(rng), draw_rate(rng), now),
    }
}

fn draw_float(rng: &mut Rng) -> f64 {
    match rng.below(4) {
        0 => rng.any_f64(),
        1 => rng.pick(&special_floats()),
        _ => rng.f64_of_exponent(-10, 40),
    }
}

fn draw_opening(rng: &mut Rng) -> Opening {
    let last_admit = draw_clock(rng, 1 << 40);
    if rng.below(2) == 0 {
        let held = None;
        return Opening { last_admit, held };
    }
    let rates = (0..rng.below(6))
        .map(|_| (rng.below(bucket_count() as u64) as u32, draw_float(rng)))
        .collect();
    let held = Held {
        last: draw_clock(rng, last_admit),
        total: draw_float(rng),
        rates,
    };
    Opening {
        last_admit,
        held: Some(held),
    }
}

fn draw_one_call(rng: &mut Rng) -> Case {
    let opening = draw_opening(rng);
    let mut clock = opening.last_admit;
    let call = draw_call(rng, &mut clock);
    (opening, vec![call])
}

fn draw_calls(rng: &mut Rng) -> Case {
    let opening = draw_opening(rng);
    let mut clock = opening.last_admit;
    let calls = (0..rng.below(24))
        .map(|_| draw_call(rng, &mut clock))
        .collect();
    (opening, calls)
}

/// The calls of a busy time, drawn from a seed.
#[derive(Clone)]
struct Flow {
    seed: u64,
    calls: u64,
}

impl Words for Flow {
    fn write(&self, out: &mut Vec<Word>) {
        (self.seed, self.calls).write(out);
    }
}

/// Fewer calls of the same flow.
impl Input for Flow {
    fn smaller(&self) -> Vec<Flow> {
        let seed = self.seed;
        let fewer = self.calls.smaller().into_iter();
        fewer.map(|calls| Flow { seed, calls }).collect()
    }
}

impl Flow {
    /// On a new meter. At times a few admissions come at one clock, after a pause, or at a clock a
    /// little before the last. The weights of half of the flows leave the meter less than full.
    fn case(&self) -> Case {
        let mut rng = Rng::new(self.seed, "flow");
        let mut clock = rng.of_bits(60);
        let opening = Opening {
            last_admit: clock,
            held: None,
        };
        let pace = 1 << (10 + rng.below(22));
        let light = rng.below(2) == 0;
        let call = |_| {
            match rng.below(64) {
                0..8 => {}
                8 => clock = clock.saturating_sub(rng.below(2 * pace)),
                9 => clock += rng.below(1 << 40),
                _ => clock += rng.below(pace),
            }
            match rng.below(1_000) {
                0 => Call::Fullness(clock),
                1 => Call::Rates(clock),
                _ if light => Call::Note(rng.below(600), draw_rate(&mut rng), clock),
                _ => Call::Note(draw_weight(&mut rng), draw_rate(&mut rng), clock),
            }
        };
        (opening, (0..self.calls).map(call).collect())
    }

    /// The meter after all calls, and the last clock.
    fn meter<M: Meter>(&self) -> (M, u64) {
        let (opening, calls) = self.case();
        let mut meter = M::open(&opening);
        let mut clock = opening.last_admit;
        for call in calls {
            clock = match call {
                Call::Fullness(now) | Call::Rates(now) => now,
                Call::Note(weight, rate, now) => {
                    meter.note_admit(weight, rate, now);
                    now
                }
            };
        }
        (meter, clock)
    }

    fn fullness<M: Meter>(&self) -> f64 {
        let (mut meter, clock) = self.meter::<M>();
        meter.fullness(clock)
    }

    fn rates<M: Meter>(&self) -> u64 {
        let (mut meter, clock) = self.meter::<M>();
        let rates = meter.admit_rates_wu_s(clock);
        rates.into_iter().fold(0, u64::wrapping_add)
    }
}

fn draw_flow(rng: &mut Rng) -> Flow {
    Flow {
        seed: rng.word(),
        calls: 2_000 + rng.below(2_000),
    }
}

/// For the program that replays them: calls on a new meter, each a kind, a weight, a rate and a clock.
type Question = (u64, Vec<(u64, (u64, u64, u64))>);

/// After the calls: the fullness, the total, the decay clock, a digest of the rates and one of the
/// rates as whole numbers.
type Answer = (f64, f64, (u64, u64, u64));

const METER: Function<Question, Answer> =
    Function::new("meter", replayed::<RattleMeter>, replayed::<Patched>);

fn replayed<M: Meter>((now, calls): &Question) -> Answer {
    let mut meter = M::open(&Opening {
        last_admit: *now,
        held: None,
    });
    for &(kind, (weight, rate, now)) in calls {
        match kind {
            0 => drop(meter.fullness(now)),
            1 => drop(meter.admit_rates_wu_s(now)),
            _ => meter.note_admit(weight, rate, now),
        }
    }
    let state = meter.state();
    let mix = |digest: u64, bits: u64| digest.rotate_left(1) ^ bits;
    let digest = state.rates.iter().map(|rate| rate.to_bits()).fold(0, mix);
    // No later clock: the reads change nothing.
    let whole = meter.admit_rates_wu_s(0).into_iter().fold(0, mix);
    (
        meter.fullness(0),
        state.total,
        (state.clock(), digest, whole),
    )
}

fn question((opening, calls): Case) -> Question {
    let call = |call| match call {
        Call::Fullness(now) => (0, (0, 0, now)),
        Call::Rates(now) => (1, (0, 0, now)),
        Call::Note(weight, rate, now) => (2, (weight, rate, now)),
    };
    (opening.last_admit, calls.into_iter().map(call).collect())
}

/// A meter with a rate in every bucket, after admissions at each edge and elsewhere; and its clock.
fn warm<M: Meter>() -> (M, u64) {
    let mut meter = M::open(&Opening {
        last_admit: 0,
        held: None,
    });
    let mut clock = 0;
    for rate in edge_rates() {
        clock += 1_000_000;
        meter.note_admit(2_000, rate, clock);
    }
    (meter, clock)
}

/// The constants and the opening, for which the Rust allocates its rates and the Rattle returns them.
fn opening_rows(bench: &mut Bench) {
    row!(bench, &[(); INPUTS], admit_half_life_secs());
    row!(bench, &[(); INPUTS], flow_full_wu());
    let mut rng = Rng::new(1, "bench meter opening");
    let clocks: Vec<u64> = (0..INPUTS).map(|_| rng.of_bits(60)).collect();
    let opened = black_box(Patched::new as fn(Instant) -> Patched);
    let instants: Vec<Instant> = clocks.iter().map(|clock| at(*clock)).collect();
    bench.row_of_forms(
        "fee_flow_meter",
        (&clocks, |&now| {
            let meter = rattle::fee_flow_meter(now);
            black_box(&meter).last
        }),
        (&instants, |&now| {
            let meter = opened(now);
            black_box(&meter).last
        }),
    );
}

pub struct FeeFlow;

impl Part for FeeFlow {
    fn name(&self) -> &'static str {
        "meter"
    }

    fn jobs(&self, plan: &Plan) -> Vec<Job> {
        vec![
            Job::over(ADMIT_HALF_LIFE_SECS, [()]),
            Job::over(FLOW_FULL_WU, [()]),
            Job::over(ONE_CALL, boundary_cases()),
            Job::over(ONE_CALL, special_cases()),
            Job::over(ONE_CALL, bucket_cases()),
            Job::over(CALLS, clock_cases()),
            Job::random(ONE_CALL, plan.scaled(3_000_000), draw_one_call),
            Job::random(CALLS, plan.scaled(500_000), draw_calls),
            Job::random(FLOW, plan.scaled(200), draw_flow),
            Job::random(FLOW_FULLNESS, plan.scaled(200), draw_flow),
            Job::random(FLOW_RATES, plan.scaled(200), draw_flow),
        ]
    }

    fn replay(&self, replay: &mut Replay) {
        replay.ask(&METER, clock_cases().into_iter().map(question));
        let buckets = bucket_cases().into_iter().step_by(40);
        replay.ask(&METER, buckets.map(question));
        replay.ask_random(&METER, 36, |rng| question(draw_calls(rng)));
    }

    /// Calls about a millisecond apart, as of a busy node. Each side has its own meter.
    fn bench(&self, bench: &mut Bench) {
        opening_rows(bench);
        let mut rng = Rng::new(1, "bench meter");
        let draw = |_| {
            // As either side's clock has it.
            let gap = 500_000 + rng.below(1_000_000);
            let gaps = (gap, Duration::from_nanos(gap));
            (400 + rng.below(400_000), draw_rate(&mut rng), gaps)
        };
        let calls: Vec<(u64, u64, (u64, Duration))> = (0..INPUTS).map(draw).collect();
        let ((mut ours, mut clock), (mut theirs, start)) =
            (warm::<RattleMeter>(), warm::<Patched>());
        let mut instant = at(start);
        let mut tick = |gaps: (u64, Duration)| {
            clock += gaps.0;
            clock
        };
        let mut tick_instant = |gaps: (u64, Duration)| {
            instant += gaps.1;
            instant
        };
        bench.row(
            "note_admit",
            &calls,
            |&(weight, rate, gaps)| rattle::note_admit(&mut ours, weight, rate, tick(gaps)),
            |&(weight, rate, gaps)| theirs.note_admit(weight, rate, tick_instant(gaps)),
        );
        bench.row(
            "fullness",
            &calls,
            |&(_, _, gaps)| rattle::fullness(&mut ours, tick(gaps)),
            |&(_, _, gaps)| theirs.fullness(tick_instant(gaps)),
        );
        bench.row(
            "admit_rates_wu_s",
            &calls,
            |&(_, _, gaps)| rattle::admit_rates_wu_s(&mut ours, tick(gaps)).wu_s[0],
            |&(_, _, gaps)| theirs.admit_rates_wu_s(tick_instant(gaps)),
        );
    }
}
