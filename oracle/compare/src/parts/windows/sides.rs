//! Calls on pair windows, and the windows of either side.

use super::rattle::{self, Memory};
use crate::lent::{Lent, RateFields};
use crate::words::{Input, Word, Words};
use std::hint::black_box;

/// Targets, capacity, and the list that is lent one place too short, 0 for none; none too is `EXACT`.
#[derive(Clone)]
pub struct Opening {
    pub targets: Vec<u32>,
    pub capacity: u64,
    pub short: u8,
}

impl Words for Opening {
    fn write(&self, out: &mut Vec<Word>) {
        self.targets.write(out);
        (self.capacity, self.short).write(out);
    }
}

impl Input for Opening {
    fn smaller(&self) -> Vec<Opening> {
        let parts = (self.targets.clone(), self.capacity, self.short).smaller();
        let opening = |(targets, capacity, short)| Opening {
            targets,
            capacity,
            short,
        };
        parts.into_iter().map(opening).collect()
    }
}

#[derive(Clone)]
pub enum Call {
    PushBack(u64),
    PushFront(u64),
    PopBack,
    PopFront,
    Rebuild(Vec<u64>),
    Pairs(u32),
    Rate(u32, f64),
}

impl Words for Call {
    fn write(&self, out: &mut Vec<Word>) {
        match self {
            Call::PushBack(hurdle) => (0_u64, *hurdle).write(out),
            Call::PushFront(hurdle) => (1_u64, *hurdle).write(out),
            Call::PopBack => 2_u64.write(out),
            Call::PopFront => 3_u64.write(out),
            Call::Rebuild(from) => (4_u64, from.clone()).write(out),
            Call::Pairs(n) => (5_u64, *n).write(out),
            Call::Rate(n, confidence) => (6_u64, (*n, *confidence)).write(out),
        }
    }
}

impl Input for Call {
    fn smaller(&self) -> Vec<Call> {
        match self {
            Call::PushBack(hurdle) => hurdle.smaller().into_iter().map(Call::PushBack).collect(),
            Call::PushFront(hurdle) => {
                let fronts = hurdle.smaller().into_iter().map(Call::PushFront);
                fronts.chain([Call::PushBack(*hurdle)]).collect()
            }
            Call::PopBack => Vec::new(),
            Call::PopFront => vec![Call::PopBack],
            Call::Rebuild(from) => from.smaller().into_iter().map(Call::Rebuild).collect(),
            Call::Pairs(n) => n.smaller().into_iter().map(Call::Pairs).collect(),
            Call::Rate(n, confidence) => {
                let smaller = (*n, *confidence).smaller().into_iter();
                smaller.map(|(n, c)| Call::Rate(n, c)).collect()
            }
        }
    }
}

/// A call, and the list that it is lent one place too short, 0 for none; none too is `EXACT`.
#[derive(Clone)]
pub struct Step {
    pub call: Call,
    pub short: u8,
}

impl From<Call> for Step {
    fn from(call: Call) -> Step {
        Step { call, short: 0 }
    }
}

impl Words for Step {
    fn write(&self, out: &mut Vec<Word>) {
        self.call.write(out);
        self.short.write(out);
    }
}

impl Input for Step {
    fn smaller(&self) -> Vec<Step> {
        let parts = (self.call.clone(), self.short).smaller().into_iter();
        parts.map(|(call, short)| Step { call, short }).collect()
    }
}

/// Document 01's refusals, which the Rust does not have. Memory is lent for `tracked` targets.
struct Rules {
    tracked: usize,
    capacity: u64,
}

impl Rules {
    const MOST_TARGETS: usize = 16;
    const MOST_PLACES: u64 = 65_536;

    /// 3, then 5.
    fn opening(opening: &Opening) -> u8 {
        let rules = Rules {
            tracked: opening.targets.len(),
            capacity: opening.capacity,
        };
        if rules.tracked > Self::MOST_TARGETS {
            3
        } else if rules.capacity > Self::MOST_PLACES || rules.lacks(opening.short) {
            5
        } else {
            0
        }
    }

    /// Whether a list that is lent for hurdles or pairs is too short: none is where nothing is asked for.
    fn lacks(&self, short: u8) -> bool {
        match short {
            rattle::HURDLES => self.capacity > 0,
            rattle::BEFORES | rattle::AHEADS => self.capacity > 0 && self.tracked > 0,
            _ => false,
        }
    }

    /// 5 before 4. Pops and `pairs` are lent nothing.
    fn step(&self, held: usize, step: &Step) -> u8 {
        let too_many = match &step.call {
            Call::PopBack | Call::PopFront | Call::Pairs(_) => return 0,
            Call::PushBack(_) | Call::PushFront(_) => held as u64 == self.capacity,
            Call::Rebuild(from) => from.len() as u64 > self.capacity,
            Call::Rate(..) => false,
        };
        let scans = matches!(step.call, Call::Rate(..));
        if self.lacks(step.short) || scans && step.short == rattle::SCRATCH && self.capacity > 0 {
            5
        } else if too_many {
            4
        } else {
            0
        }
    }
}

/// The hurdles, and for each target how many pairs it is said to have and its pairs, oldest first.
pub struct State {
    pub hurdles: Vec<u64>,
    pub pairs: Vec<(usize, Vec<(f64, u64)>)>,
}

impl Words for State {
    fn write(&self, out: &mut Vec<Word>) {
        self.hurdles.write(out);
        self.pairs.write(out);
    }
}

/// Pair windows of either side.
pub trait Side: Sized {
    /// The windows, and what their opening was answered with.
    fn open(opening: &Opening) -> (Self, Reply);
    fn step(&mut self, step: &Step) -> Reply;
    fn state(&self) -> State;
}

/// The refusal, then a count or a rate where the call has one; and whether what a call must not change
/// is as it was.
pub type Reply = Lent<RateFields>;

/// The port's windows, with the memory that each call is lent.
pub struct Port {
    pub state: rattle::State,
    pub memory: Memory,
}

impl Port {
    /// Whether a list that a rebuild reads is kept is told with the answer.
    pub fn called(&mut self, step: &Step) -> Reply {
        let state = self.state;
        let lent = &mut self.memory.lend(step.short, state.tracked, state.capacity);
        let mut kept = true;
        let update = match &step.call {
            Call::PushBack(hurdle) => rattle::push_back(state, *hurdle, lent),
            Call::PushFront(hurdle) => rattle::push_front(state, *hurdle, lent),
            Call::PopBack => rattle::pop_back(state),
            Call::PopFront => rattle::pop_front(state),
            Call::Rebuild(from) => {
                let copy = black_box(from.clone());
                let update = rattle::rebuild(state, &copy, lent);
                kept = black_box(&copy) == from;
                update
            }
            Call::Pairs(n) => {
                let counted = rattle::pairs(state, *n);
                return Reply::from(RateFields {
                    refusal: counted.refusal,
                    mark: u8::from(counted.refusal == 0),
                    rate: counted.count as u64,
                });
            }
            Call::Rate(n, confidence) => {
                return rattle::rate_sat_kvb(state, *n, *confidence, lent).into();
            }
        };
        self.state = update.state;
        let answer = RateFields::refused(update.refusal);
        Reply { answer, kept }
    }

    /// Whether the call left what it must not change: everything where it is refused or only reads, but
    /// for the scratch of a scan that found a rate; else what lies past the windows' places.
    pub fn keeps(
        &self,
        call: &Call,
        answer: RateFields,
        state: rattle::State,
        memory: &Memory,
    ) -> bool {
        let reads = matches!(call, Call::Pairs(_) | Call::Rate(..));
        let pops = matches!(call, Call::PopBack | Call::PopFront);
        let (hurdles, pairs) = if answer.refusal != 0 || reads || pops {
            (0, 0)
        } else {
            (state.capacity, state.tracked.saturating_mul(state.capacity))
        };
        let now = black_box(&self.memory);
        let (hurdles, pairs) = (hurdles.min(now.hurdles.len()), pairs.min(now.aheads.len()));
        let bits = |list: &[f64]| list.iter().map(|x| x.to_bits()).collect::<Vec<u64>>();
        now.hurdles[hurdles..] == memory.hurdles[hurdles..]
            && bits(&now.befores[pairs..]) == bits(&memory.befores[pairs..])
            && now.aheads[pairs..] == memory.aheads[pairs..]
            && (answer.mark == 1 && matches!(call, Call::Rate(..)) || now.scratch == memory.scratch)
            && (self.state == state || answer.refusal == 0 && !reads)
    }

    /// Of a refused call, a rate, and any call on little memory a copy is kept to compare with.
    fn is_watched(&self, step: &Step) -> bool {
        const LITTLE: usize = 1 << 12;
        let rules = Rules {
            tracked: self.state.tracked,
            capacity: self.state.capacity as u64,
        };
        self.memory.aheads.len() < LITTLE
            || matches!(step.call, Call::Rate(..))
            || rules.step(self.state.count, step) != 0
    }
}

impl Side for Port {
    fn open(opening: &Opening) -> (Port, Reply) {
        // A larger capacity is refused, whatever is lent.
        let places = opening.capacity.min(Rules::MOST_PLACES + 1) as usize;
        let mut memory = Memory::new(opening.targets.len(), places);
        let before = memory.clone();
        let mut targets = opening.targets.clone();
        let update = {
            let lent = &mut memory.lend(opening.short, targets.len(), places);
            rattle::new(&mut targets, opening.capacity as usize, lent)
        };
        let port = Port {
            state: update.state,
            memory,
        };
        let answer = RateFields::refused(update.refusal);
        let kept = black_box(&targets) == &opening.targets
            && port.keeps(&Call::Pairs(0), answer, update.state, &before);
        (port, Reply { answer, kept })
    }

    fn step(&mut self, step: &Step) -> Reply {
        let before = self
            .is_watched(step)
            .then(|| (self.state, self.memory.clone()));
        let Reply { answer, kept } = self.called(step);
        let kept = kept
            && before.is_none_or(|(state, memory)| self.keeps(&step.call, answer, state, &memory));
        Reply { answer, kept }
    }

    fn state(&self) -> State {
        let held = &self.state;
        let pairs_of = |place: usize| {
            let n = held.targets[place];
            let count = rattle::pairs(*held, n).count;
            let first = place * held.capacity + held.start + rattle::analog_lookback(n);
            let stored = first..(first + count).min(self.memory.aheads.len());
            let stored = stored.map(|at| (self.memory.befores[at], self.memory.aheads[at]));
            (count, stored.collect())
        };
        State {
            hurdles: self.memory.hurdles[held.start..held.start + held.count].to_vec(),
            pairs: (0..held.tracked).map(pairs_of).collect(),
        }
    }
}

/// The Rust's own type, of either tree.
pub trait History {
    fn new(targets: &[u32]) -> Self;
    fn held(&self) -> usize;
    fn step(&mut self, call: &Call) -> Option<u64>;
    fn state(&self, targets: &[u32]) -> State;
}

macro_rules! rust_history {
    ($history:ty) => {
        impl History for $history {
            fn new(targets: &[u32]) -> $history {
                <$history>::new(targets)
            }

            fn held(&self) -> usize {
                self.hurdles.len()
            }

            fn step(&mut self, call: &Call) -> Option<u64> {
                match call {
                    Call::PushBack(hurdle) => self.push_back(*hurdle),
                    Call::PushFront(hurdle) => self.push_front(*hurdle),
                    Call::PopBack => self.pop_back(),
                    Call::PopFront => self.pop_front(),
                    Call::Rebuild(from) => self.rebuild(from.iter().copied()),
                    Call::Pairs(n) => return Some(self.pairs(*n) as u64),
                    Call::Rate(n, confidence) => return self.rate_sat_kvb(*n, *confidence),
                }
                None
            }

            fn state(&self, targets: &[u32]) -> State {
                let depths = self.depths.iter().zip(targets);
                State {
                    hurdles: self.hurdles.iter().copied().collect(),
                    pairs: depths
                        .map(|(depth, n)| (self.pairs(*n), depth.pairs.iter().copied().collect()))
                        .collect(),
                }
            }
        }
    };
}

pub type Patched = patched_mempool::fee_analog::AnalogHistory;
pub type Upstream = upstream_mempool::fee_analog::AnalogHistory;

rust_history!(Patched);
rust_history!(Upstream);

/// The Rust's windows behind document 01's refusals: a refused call is not made.
pub struct Rust<H> {
    pub history: H,
    targets: Vec<u32>,
    rules: Rules,
}

impl<H: History> Side for Rust<H> {
    fn open(opening: &Opening) -> (Rust<H>, Reply) {
        let refusal = Rules::opening(opening);
        let (targets, capacity) = match refusal {
            0 => (opening.targets.clone(), opening.capacity),
            // What a refused opening leaves takes no hurdle.
            _ => (Vec::new(), 0),
        };
        let windows = Rust {
            history: H::new(&targets),
            rules: Rules {
                tracked: targets.len(),
                capacity,
            },
            targets,
        };
        (windows, RateFields::refused(refusal).into())
    }

    fn step(&mut self, step: &Step) -> Reply {
        let refusal = self.rules.step(self.history.held(), step);
        if refusal != 0 {
            return RateFields::refused(refusal).into();
        }
        RateFields::from(self.history.step(&step.call)).into()
    }

    fn state(&self) -> State {
        self.history.state(&self.targets)
    }
}

/// An opening and calls.
pub type Case = (Opening, Vec<Step>);

/// What a call was answered with, and the windows after it.
pub struct After {
    pub reply: Reply,
    pub state: Option<State>,
}

impl Words for After {
    fn write(&self, out: &mut Vec<Word>) {
        self.reply.write(out);
        self.state.write(out);
    }
}

/// The windows after each call.
pub fn run<S: Side>((opening, steps): &Case) -> Vec<After> {
    let (mut windows, reply) = S::open(opening);
    let first = After {
        reply,
        state: Some(windows.state()),
    };
    let rest = steps.iter().map(|step| After {
        reply: windows.step(step),
        state: Some(windows.state()),
    });
    std::iter::once(first).chain(rest).collect()
}

/// The windows after the last call.
pub fn run_to_end<S: Side>((opening, steps): &Case) -> Vec<After> {
    let (mut windows, reply) = S::open(opening);
    let mut out = vec![After { reply, state: None }];
    for step in steps {
        let reply = windows.step(step);
        out.push(After { reply, state: None });
    }
    let last = out.len() - 1;
    out[last].state = Some(windows.state());
    out
}
