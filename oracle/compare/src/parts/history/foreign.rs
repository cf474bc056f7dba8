//! Calls on states that no call made, nearly all within the limits, over memory that somebody else wrote:
//! heights do not ascend or stand there twice, marks are any, hurdles and pairs are not those of the rows,
//! the total is no sum, windows are full where rows are not. After each call the answer, the state and every
//! element of the fifteen lists, but for the scratch once a scan has found a rate, are compared with what the
//! definitions say.

use super::inputs::draw_steps;
use super::model::Model;
use super::rattle::{Memory, State};
use super::sides::{Call, Port, Reply, Step};
use crate::check::Function;
use crate::parts::windows::foreign::{draw_place, float_bits};
use crate::parts::windows::inputs::{any_float, draw_hurdle, draw_target};
use crate::parts::windows::rattle::State as Analog;
use crate::rng::Rng;
use crate::words::{Word, Words, digest};
use patched_mempool::fee_analog::ln_rate;

/// Targets, capacity and place of the hurdles; how many these are, place and number of the rows; the number
/// of hashes, the seed of everything else, and calls.
pub type Used = ((u64, u64, u64), (u64, u64, u64), (u64, u64, Vec<Step>));

/// Up to 12 calls on few places.
pub const FOREIGN_CALLS: Function<Used, Vec<Seen>> =
    Function::new("foreign_calls", seen::<Port>, seen::<Model>);

/// Three times the rates of some 2,000 pairs, and any call after each.
pub const FOREIGN_RATES: Function<Used, Vec<Seen>> =
    Function::new("foreign_rates", seen::<Port>, seen::<Model>);

/// The answer, what of the state says most, and a digest of state and memory.
pub struct Seen {
    reply: Reply,
    state: State,
    digest: u64,
}

impl Words for Seen {
    fn write(&self, out: &mut Vec<Word>) {
        let State {
            analog,
            start,
            count,
            ..
        } = self.state;
        self.reply.write(out);
        ((start, count, self.state.hashes), self.state.txstat_bytes).write(out);
        (analog.start, analog.count).write(out);
        (self.state.analog_stale, self.state.kept, self.digest).write(out);
    }
}

/// A state and its memory, on either side.
trait Held {
    fn of(state: State, memory: Memory) -> Self;
    fn called(&mut self, step: &Step) -> Reply;
    fn parts(&self) -> (&State, &Memory);
}

impl Held for Port {
    fn of(state: State, memory: Memory) -> Port {
        Port { state, memory }
    }

    fn called(&mut self, step: &Step) -> Reply {
        Port::called(self, step)
    }

    fn parts(&self) -> (&State, &Memory) {
        (&self.state, &self.memory)
    }
}

impl Held for Model {
    fn of(state: State, memory: Memory) -> Model {
        Model { state, memory }
    }

    fn called(&mut self, step: &Step) -> Reply {
        Model::called(self, step)
    }

    fn parts(&self) -> (&State, &Memory) {
        (&self.state, &self.memory)
    }
}

fn seen<H: Held>(used: &Used) -> Vec<Seen> {
    let (state, memory) = foreign(used);
    let mut held = H::of(state, memory);
    // A scan that found a rate leaves its scratch open.
    let mut is_open = false;
    let mut after = |step: &Step| {
        let was_kept = held.parts().0.kept;
        let reply = held.called(step);
        let found = reply.answer.chunks(2).any(|rate| rate[0] == 1);
        is_open |= matches!(step.call, Call::Rates) && found && !was_kept;
        let (state, memory) = held.parts();
        Seen {
            reply,
            state: *state,
            digest: all(state, memory, !is_open),
        }
    };
    let (_, _, (_, _, steps)) = used;
    steps.iter().map(&mut after).collect()
}

fn all(state: &State, memory: &Memory, with_scratch: bool) -> u64 {
    let Analog {
        targets,
        tracked,
        capacity,
        start,
        count,
    } = state.analog;
    let sizes = [tracked, capacity, start, count].map(|size| size as u64);
    let fixed = targets.map(u64::from).into_iter().chain(sizes);
    let kept = state.kept_marks.map(u64::from).into_iter();
    let kept = kept.chain(state.kept_numbers).chain([state.budget]);
    let bytes = |list: &[u8]| -> Vec<u64> {
        let mut word = [0; 8];
        let padded = list.chunks(8).map(|part| {
            word = [0; 8];
            word[..part.len()].copy_from_slice(part);
            u64::from_le_bytes(word)
        });
        padded.collect()
    };
    let byte_lists = [&memory.marks, &memory.hash_bytes];
    let byte_lists = byte_lists
        .into_iter()
        .chain([&memory.out_marks, &memory.out_bytes]);
    let heights = [&memory.heights, &memory.hash_heights, &memory.out_heights];
    let heights = heights.into_iter().flatten().map(|height| (*height).into());
    let words = [&memory.rates, &memory.sizes, &memory.hurdles];
    let words = words.into_iter().chain([&memory.aheads]);
    let words = words.chain([&memory.out_numbers, &memory.out_sizes]);
    let words = words.flatten().copied();
    let scratch = memory.scratch.iter().copied().filter(|_| with_scratch);
    let state = fixed.chain(kept);
    let numbers = words
        .chain(scratch)
        .chain(memory.befores.iter().map(float_bits));
    let lists = byte_lists.flat_map(|list| bytes(list));
    digest(state.chain(heights).chain(numbers).chain(lists))
}

/// Heights of which many are near each other, and some at the top.
fn draw_height(rng: &mut Rng) -> u32 {
    match rng.below(16) {
        0 => u32::MAX - rng.below(3) as u32,
        _ => rng.below(40) as u32,
    }
}

/// In any order, ascending with repeats, ascending but for two, descending.
fn fill_heights(rng: &mut Rng, heights: &mut [u32], wide: bool) {
    for (place, height) in heights.iter_mut().enumerate() {
        *height = match wide {
            true => place as u32 + rng.below(3) as u32,
            false => draw_height(rng),
        };
    }
    match rng.below(4) {
        0 => {}
        1 => heights.sort_unstable(),
        2 => heights.sort_unstable_by(|a, b| b.cmp(a)),
        _ => {
            heights.sort_unstable();
            let count = heights.len() as u64;
            heights.swap(rng.below(count) as usize, rng.below(count) as usize);
        }
    }
}

/// The state and the memory of an input.
fn foreign(used: &Used) -> (State, Memory) {
    const MOST: usize = 4_096;
    let (.., (_, seed, _)) = used;
    let mut rng = Rng::new(*seed, "foreign history");
    let state = draw_state(&mut rng, used);
    let Analog {
        tracked, capacity, ..
    } = state.analog;
    let mut memory = Memory::new(tracked.min(16), capacity.min(MOST));
    fill_rows(&mut rng, &mut memory);
    fill_windows(&mut rng, &mut memory, *seed);
    (state, memory)
}

fn draw_state(rng: &mut Rng, used: &Used) -> State {
    let ((tracked, capacity, first), (hurdles, start, count), (hashes, seed, _)) = used;
    let sums = [0, 3, 100, 1 << 40, u64::MAX - 2, u64::MAX];
    State {
        analog: Analog {
            targets: targets(*seed),
            tracked: *tracked as usize,
            capacity: *capacity as usize,
            start: *first as usize,
            count: *hurdles as usize,
        },
        analog_stale: rng.below(4) == 0,
        start: *start as usize,
        count: *count as usize,
        txstat_bytes: rng.pick(&sums),
        budget: rng.pick(&sums),
        hashes: *hashes as usize,
        kept: rng.below(4) == 0,
        kept_numbers: std::array::from_fn(|_| rng.word()),
        kept_marks: std::array::from_fn(|_| rng.pick(&[0, 1, 1, 2, 255])),
    }
}

fn fill_rows(rng: &mut Rng, memory: &mut Memory) {
    fill_heights(rng, &mut memory.heights, false);
    let wide = rng.below(2) == 0;
    fill_heights(rng, &mut memory.hash_heights, wide);
    let large = rng.below(3) == 0;
    for (mark, size) in memory.marks.iter_mut().zip(&mut memory.sizes) {
        *mark = rng.pick(&[0, 1, 1, 1, 1, 2, 129, 255]);
        *size = match large {
            true => rng.of_any_length(),
            false => rng.below(20),
        };
    }
}

/// Rates and hurdles about one level or any; most logarithms of foreign pairs are those of rates.
fn fill_windows(rng: &mut Rng, memory: &mut Memory, seed: u64) {
    let level = 1 + rng.below(50_000);
    for number in memory.rates.iter_mut().chain(&mut memory.hurdles) {
        *number = match seed % 2 {
            0 => level + rng.below(level),
            _ => draw_hurdle(rng),
        };
    }
    for before in &mut memory.befores {
        *before = match rng.below(4) {
            0 if seed.is_multiple_of(3) => any_float(rng),
            _ => ln_rate(1 + rng.below(4 * level)),
        };
    }
}

fn targets(seed: u64) -> [u32; 16] {
    let mut rng = Rng::new(seed, "foreign targets");
    std::array::from_fn(|_| draw_target(&mut rng))
}

/// A call about the heights that stand in the memory.
fn draw_step(rng: &mut Rng) -> Step {
    let mut step = draw_steps(rng, 1).remove(0);
    match &mut step.call {
        Call::Insert(height, ..)
        | Call::InsertIfAbsent(height, ..)
        | Call::TruncateAbove(height)
        | Call::Get(height) => *height = draw_height(rng),
        Call::Entries | Call::RecentHashes | Call::Rates => {}
    }
    step
}

fn draw_hashes(rng: &mut Rng) -> u64 {
    match rng.below(4) {
        0 => 142 + rng.below(3),
        1 => rng.below(145),
        _ => rng.below(20),
    }
}

pub fn draw_used(rng: &mut Rng) -> Used {
    let tracked = match rng.below(8) {
        0 => rng.pick(&[0, 15, 16]),
        _ => 1 + rng.below(3),
    };
    let capacity = rng.below(40);
    let (first, hurdles) = draw_place(rng, capacity, 0);
    let (start, count) = draw_place(rng, capacity, 0);
    let steps = (0..1 + rng.below(12)).map(|_| draw_step(rng)).collect();
    let rest = (draw_hashes(rng), rng.of_bits(32), steps);
    ((tracked, capacity, first), (hurdles, start, count), rest)
}

/// Rates before and after other calls, which cut off few rows.
pub fn draw_rated(rng: &mut Rng) -> Used {
    let tracked = 1 + rng.below(3);
    let capacity = 2_020 + rng.below(200);
    let (first, hurdles) = draw_place(rng, capacity, 2_012);
    let (start, count) = draw_place(rng, capacity, 2_012);
    let step = |place: u64| {
        let mut step = draw_step(rng);
        if place.is_multiple_of(2) {
            step.call = Call::Rates;
        } else if let Call::Insert(height, ..) | Call::TruncateAbove(height) = &mut step.call {
            *height = u32::MAX;
        }
        step
    };
    let steps = (0..6).map(step).collect();
    let rest = (draw_hashes(rng), rng.of_bits(32), steps);
    ((tracked, capacity, first), (hurdles, start, count), rest)
}

#[cfg(test)]
mod tests {
    use super::*;
    use std::collections::HashMap;

    /// Refusals and answers; heights that do not ascend, so that the search misses some that are there.
    #[test]
    fn foreign_calls_are_of_every_kind() {
        let mut rng = Rng::new(1, "kinds");
        let mut refusals = HashMap::new();
        let mut missed = 0;
        for _ in 0..1_000 {
            let used = draw_used(&mut rng);
            for seen in seen::<Model>(&used) {
                *refusals.entry(seen.reply.refusal).or_insert(0) += 1;
            }
            let (state, memory) = foreign(&used);
            let held: Vec<u32> = memory.heights[state.start..][..state.count].to_vec();
            let mut model = Model { state, memory };
            for height in held {
                let found = model.called(&Call::Get(height).into());
                missed += u64::from(found.refusal == 0 && found.answer[0] == 0);
            }
        }
        assert_eq!(refusals.len(), 4, "{refusals:?}");
        assert!(refusals.values().all(|count| *count > 10), "{refusals:?}");
        assert!(refusals[&0] > 3_000, "{refusals:?}");
        assert!(missed > 1_000, "{missed}");
    }

    #[test]
    fn foreign_pairs_have_rates() {
        let mut rng = Rng::new(1, "kinds");
        let is_there = |seen: &Seen| seen.state.kept && seen.state.kept_marks.contains(&1);
        let has_rates = |used: &Used| seen::<Model>(used).iter().any(is_there);
        let rated = (0..20).filter(|_| has_rates(&draw_rated(&mut rng))).count();
        assert!(rated > 10, "{rated} of 20");
    }

    /// Each list and each part of the state is in the digest.
    #[test]
    fn a_changed_place_is_a_difference() {
        let used = ((2, 5, 0), (4, 1, 3), (7, 1, Vec::new()));
        let (state, memory) = foreign(&used);
        let before = all(&state, &memory, true);
        type Change = fn(&mut State, &mut Memory);
        let changes: [Change; 18] = [
            |_, memory| memory.heights[7] ^= 1,
            |_, memory| memory.marks[7] ^= 1,
            |_, memory| memory.rates[7] ^= 1,
            |_, memory| memory.sizes[7] ^= 1,
            |_, memory| memory.hash_heights[146] ^= 1,
            |_, memory| memory.hash_bytes[4_610] ^= 1,
            |_, memory| memory.hurdles[7] ^= 1,
            |_, memory| memory.befores[12] = -1.0,
            |_, memory| memory.aheads[12] ^= 1,
            |_, memory| memory.scratch[7] ^= 1,
            |_, memory| memory.out_heights[146] ^= 1,
            |_, memory| memory.out_marks[146] ^= 1,
            |_, memory| memory.out_numbers[146] ^= 1,
            |_, memory| memory.out_sizes[146] ^= 1,
            |_, memory| memory.out_bytes[4_610] ^= 1,
            |state, _| state.kept_numbers[15] ^= 1,
            |state, _| state.budget ^= 1,
            |state, _| state.analog.targets[15] ^= 1,
        ];
        for (number, change) in changes.iter().enumerate() {
            let (mut state, mut memory) = (state, memory.clone());
            change(&mut state, &mut memory);
            assert_ne!(all(&state, &memory, true), before, "change {number}");
        }
    }
}
