//! Calls on states that no call made, nearly all within the limits, over memory that somebody else wrote:
//! where the held hurdles start and how many they are, hurdles, pairs and targets are any. After each call
//! the answer, the state and every element of the memory, but for the scratch once a scan has found a rate,
//! are compared with what the definitions say.

use super::inputs::{any_float, draw_call, draw_confidence, draw_hurdle, draw_short, draw_target};
use super::model::{self, Windows};
use super::rattle::{Memory, SCRATCH, State};
use super::sides::{Call, Opening, Port, Step};
use crate::check::Function;
use crate::lent::RateFields;
use crate::rng::Rng;
use crate::words::digest;
use patched_mempool::fee_analog::ln_rate;

/// Targets, capacity and start; count, the seed of targets and contents, and calls.
pub type Used = ((u64, u64, u64), (u64, u64, Vec<Step>));

/// The answer; start and count; a digest of state and memory.
type Seen = (RateFields, (usize, usize), u64);

/// Twelve calls on few places.
pub const FOREIGN_CALLS: Function<Used, Vec<Seen>> =
    Function::new("foreign_calls", seen::<Port>, seen::<Model>);

/// Eight pushes, pops and rates, of some 2,000 pairs.
pub const FOREIGN_RATES: Function<Used, Vec<Seen>> =
    Function::new("foreign_rates", seen::<Port>, seen::<Model>);

/// A state and its memory, on either side.
trait Held {
    fn of(state: State, memory: Memory) -> Self;
    fn called(&mut self, step: &Step) -> RateFields;
    fn state(&self) -> &State;
    fn memory(&self) -> &Memory;
}

impl Held for Port {
    fn of(state: State, memory: Memory) -> Port {
        Port { state, memory }
    }

    fn called(&mut self, step: &Step) -> RateFields {
        Port::called(self, step).answer
    }

    fn state(&self) -> &State {
        &self.state
    }

    fn memory(&self) -> &Memory {
        &self.memory
    }
}

/// What the definitions say.
struct Model {
    state: State,
    memory: Memory,
}

impl Held for Model {
    fn of(state: State, memory: Memory) -> Model {
        Model { state, memory }
    }

    fn called(&mut self, Step { call, short }: &Step) -> RateFields {
        let state = &mut self.state;
        let lent = self.memory.lend(*short, state.tracked, state.capacity);
        let lacks_scratch = lent.scratch.len() < state.capacity;
        let mut windows = Windows {
            state,
            hurdles: lent.hurdles,
            befores: lent.befores,
            aheads: lent.aheads,
        };
        let refusal = match call {
            Call::PushBack(hurdle) => windows.push(*hurdle, true),
            Call::PushFront(hurdle) => windows.push(*hurdle, false),
            Call::PopBack => model::pop(windows.state, true),
            Call::PopFront => model::pop(windows.state, false),
            Call::Rebuild(from) => windows.rebuild(from),
            Call::Pairs(n) => match model::state_refusal(windows.state) {
                0 => return Some(model::pairs(windows.state, *n) as u64).into(),
                refusal => refusal,
            },
            Call::Rate(n, confidence) => match windows.refusal() {
                0 if !lacks_scratch => return windows.rate(*n, *confidence).into(),
                0 => 5,
                refusal => refusal,
            },
        };
        RateFields::refused(refusal)
    }

    fn state(&self) -> &State {
        &self.state
    }

    fn memory(&self) -> &Memory {
        &self.memory
    }
}

fn seen<H: Held>(used: &Used) -> Vec<Seen> {
    let ((tracked, capacity, start), (count, seed, steps)) = used;
    let state = State {
        targets: targets(*seed),
        tracked: *tracked as usize,
        capacity: *capacity as usize,
        start: *start as usize,
        count: *count as usize,
    };
    let mut held = H::of(state, memory(state, *seed));
    // A scan that found a rate leaves its scratch open.
    let mut is_open = false;
    let mut after = |step: &Step| {
        let answer = held.called(step);
        is_open |= matches!(step.call, Call::Rate(..)) && answer.mark == 1;
        let state = held.state();
        let left = all(state, held.memory(), !is_open);
        (answer, (state.start, state.count), left)
    };
    steps.iter().map(&mut after).collect()
}

/// Of NaNs it is not told which.
pub fn float_bits(x: &f64) -> u64 {
    if x.is_nan() { u64::MAX } else { x.to_bits() }
}

fn all(state: &State, memory: &Memory, with_scratch: bool) -> u64 {
    let sizes = [state.tracked, state.capacity, state.start, state.count];
    let state = state.targets.map(u64::from).into_iter();
    let state = state.chain(sizes.map(|size| size as u64));
    let scratch = memory.scratch.iter().filter(|_| with_scratch);
    let words = memory.hurdles.iter().chain(&memory.aheads).chain(scratch);
    let befores = memory.befores.iter().map(float_bits);
    digest(state.chain(words.copied()).chain(befores))
}

fn targets(seed: u64) -> [u32; 16] {
    let mut rng = Rng::new(seed, "foreign targets");
    std::array::from_fn(|_| draw_target(&mut rng))
}

/// Room for the capacity, if that is small; most logarithms of foreign pairs are those of rates.
fn memory(state: State, seed: u64) -> Memory {
    const MOST: usize = 4_096;
    let mut rng = Rng::new(seed, "foreign memory");
    let mut memory = Memory::new(state.tracked.min(16), state.capacity.min(MOST));
    let level = 1 + rng.below(50_000);
    for hurdle in &mut memory.hurdles {
        *hurdle = match seed % 2 {
            0 => level + rng.below(level),
            _ => draw_hurdle(&mut rng),
        };
    }
    for before in &mut memory.befores {
        *before = match rng.below(4) {
            0 if seed.is_multiple_of(3) => any_float(&mut rng),
            _ => ln_rate(1 + rng.below(4 * level)),
        };
    }
    memory
}

/// A start and a count within the capacity, often at its ends.
pub fn draw_place(rng: &mut Rng, capacity: u64, least: u64) -> (u64, u64) {
    let count = least + rng.below(capacity - least + 1);
    match rng.below(8) {
        0 => (0, capacity),
        1 => (0, count),
        2 => (capacity - count, count),
        // Past the capacity.
        3 if rng.below(8) == 0 => (capacity - count + 1, count),
        _ => (rng.below(capacity - count + 1), count),
    }
}

pub fn draw_used(rng: &mut Rng) -> Used {
    let tracked = match rng.below(8) {
        0 => rng.pick(&[0, 15, 16]),
        _ => 1 + rng.below(3),
    };
    let capacity = rng.below(40);
    let (start, count) = draw_place(rng, capacity, 0);
    let seed = rng.of_bits(32);
    let opening = Opening {
        targets: targets(seed)[..tracked as usize].to_vec(),
        capacity,
        short: 0,
    };
    let back = rng.below(11);
    let step = |_| Step {
        call: draw_call(rng, &opening, back),
        short: draw_short(rng),
    };
    let steps = (0..12).map(step).collect();
    ((tracked, capacity, start), (count, seed, steps))
}

pub fn draw_rated(rng: &mut Rng) -> Used {
    let tracked = 1 + rng.below(3);
    let capacity = 2_020 + rng.below(200);
    let (start, count) = draw_place(rng, capacity, 2_012);
    let seed = rng.of_bits(32);
    let targets = targets(seed);
    let target = |rng: &mut Rng| targets[rng.below(tracked) as usize];
    let step = |place: u64| Step {
        call: match rng.below(2) + place % 2 {
            0 => Call::PushBack(draw_hurdle(rng)),
            1 if rng.below(2) == 0 => Call::PopBack,
            1 => Call::PushFront(draw_hurdle(rng)),
            _ => Call::Rate(target(rng), draw_confidence(rng)),
        },
        short: match rng.below(16) {
            0 => SCRATCH,
            _ => 0,
        },
    };
    let steps = (0..8).map(step).collect();
    ((tracked, capacity, start), (count, seed, steps))
}

#[cfg(test)]
mod tests {
    use super::*;
    use std::collections::HashMap;

    #[test]
    fn foreign_calls_are_of_every_kind() {
        let mut rng = Rng::new(1, "kinds");
        let mut refusals = HashMap::new();
        for _ in 0..1_000 {
            for (answer, ..) in seen::<Model>(&draw_used(&mut rng)) {
                *refusals.entry(answer.refusal).or_insert(0) += 1;
            }
        }
        assert_eq!(refusals.len(), 3, "{refusals:?}");
        assert!(refusals.values().all(|count| *count > 100), "{refusals:?}");
        let has_rates = |(answer, ..): &Seen| answer.mark == 1 && answer.rate > 0;
        let rated = (0..20).filter(|_| seen::<Model>(&draw_rated(&mut rng)).iter().any(has_rates));
        assert!(rated.count() > 10);
    }

    /// The model's pairs after pushes onto nothing are the Rust's.
    #[test]
    fn the_model_stores_the_pairs_of_case_l() {
        let state = State {
            targets: [1; 16],
            tracked: 1,
            capacity: 8,
            start: 3,
            count: 0,
        };
        let mut model = Model::of(state, Memory::new(1, 8));
        for hurdle in [5, 9, 7, 8] {
            model.called(&Call::PushBack(hurdle).into());
        }
        assert_eq!(model.memory.hurdles[3..7], [5, 9, 7, 8]);
        let pair = (model.memory.befores[6], model.memory.aheads[6]);
        assert_eq!(pair, (ln_rate(7), 8));
    }
}
