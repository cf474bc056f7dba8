//! Both sides at the box's size. Each has its own history, and is given the same calls.

use super::rattle::{self, Memory};
use super::sides::{Hash, Opening, Patched, Port, Side, block_hash, hash_bytes, marked};
use crate::bench::{Bench, INPUTS};
use crate::parts::windows::inputs::{BOX_CAPACITY, BOX_HURDLES, BOX_TARGETS, CALM, Stretch};
use crate::rng::Rng;
use patched_net::fee_history::HistoricalFeeBlock;
use std::cell::Cell;
use std::hint::black_box;

/// Each block's byte count.
const BYTES: u64 = 35_000;
/// The first held height: half of them all, so that there is room on both sides.
const FIRST: u32 = 1 << 31;

/// The Rust as it is timed: never inlined, so that both sides pay for a call.
mod rust {
    use super::{HistoricalFeeBlock, Patched};
    use std::collections::HashMap;

    #[inline(never)]
    pub fn insert(history: &mut Patched, height: u32, block: HistoricalFeeBlock, hash: [u8; 32]) {
        history.insert(height, block, Some(hash));
    }

    #[inline(never)]
    pub fn insert_if_absent(
        history: &mut Patched,
        height: u32,
        block: HistoricalFeeBlock,
        hash: [u8; 32],
    ) {
        history.insert_if_absent(height, block, Some(hash));
    }

    #[inline(never)]
    pub fn truncate_above(history: &mut Patched, height: u32) {
        history.truncate_above(height);
    }

    #[inline(never)]
    pub fn get(history: &Patched, height: u32) -> Option<HistoricalFeeBlock> {
        history.get(height)
    }

    #[inline(never)]
    pub fn entries(history: &Patched) -> Vec<(u32, HistoricalFeeBlock)> {
        history.entries()
    }

    #[inline(never)]
    pub fn recent_hashes(history: &Patched) -> Vec<(u32, [u8; 32])> {
        history.recent_hashes()
    }

    #[inline(never)]
    pub fn rates(history: &mut Patched) -> HashMap<u32, Option<u64>> {
        history.rates()
    }
}

fn block(rate: u64) -> HistoricalFeeBlock {
    HistoricalFeeBlock {
        p10_sat_kvb: Some(rate),
        txstat_bytes: BYTES,
    }
}

/// Every list as long as it is.
fn all(memory: &mut Memory) -> rattle::Lists<'_> {
    memory.lend(0, rattle::Asked::default())
}

impl Port {
    fn insert(&mut self, height: u32, rate: u64, hash: Hash) {
        let (state, block) = (self.state, marked((Some(rate), BYTES)));
        let update = rattle::insert(
            state,
            height,
            block,
            block_hash(hash),
            &mut all(&mut self.memory),
        );
        assert_eq!(update.refusal, 0, "there is room");
        self.state = update.state;
    }

    fn insert_if_absent(&mut self, height: u32, rate: u64, hash: Hash) {
        let (state, block) = (self.state, marked((Some(rate), BYTES)));
        let hash = block_hash(hash);
        let update =
            rattle::insert_if_absent(state, height, block, hash, &mut all(&mut self.memory));
        assert_eq!(update.refusal, 0, "there is room");
        self.state = update.state;
    }

    fn truncate_above(&mut self, height: u32) {
        self.state = rattle::truncate_above(self.state, height, &mut all(&mut self.memory)).state;
    }
}

/// Histories of both sides that hold the box's blocks, and no more bytes than these have.
fn histories(budget: u64) -> (Port, Patched) {
    let (mut port, _) = Port::open(&Opening {
        budget,
        targets: BOX_TARGETS.to_vec(),
        capacity: BOX_CAPACITY,
        short: 0,
    });
    let mut history = Patched::new(budget, &BOX_TARGETS);
    for (height, rate) in (FIRST..).zip(calm(1, BOX_HURDLES)) {
        port.insert(height, rate, Some(rate));
        history.insert(height, block(rate), Some(hash_bytes(rate)));
    }
    assert_eq!(port.state.count as u64, BOX_HURDLES, "the blocks are held");
    assert_eq!(history.blocks.len() as u64, BOX_HURDLES);
    (port, history)
}

fn calm(seed: u64, length: u64) -> Vec<u64> {
    let kind = CALM;
    Stretch { kind, seed, length }.hurdles()
}

/// A height that goes up or down by one with each call.
struct Heights(Cell<u32>);

impl Heights {
    fn up(&self) -> u32 {
        self.0.update(|height| height + 1);
        self.0.get()
    }

    fn down(&self) -> u32 {
        self.0.update(|height| height - 1);
        self.0.get()
    }
}

/// A block comes and the oldest is evicted, or an older block comes and the newest is cut off: 31,000 are
/// held. What the port moves when it meets the end of its memory is in its time.
fn insert_rows(bench: &mut Bench) {
    let (mut port, mut history) = histories(BYTES * BOX_HURDLES);
    let next = calm(2, 4_096);
    let tip = FIRST + BOX_HURDLES as u32 - 1;
    let heights = [(); 2].map(|_| Heights(Cell::new(tip)));
    bench.row(
        "insert_and_evict",
        &next,
        |rate| port.insert(heights[0].up(), *rate, Some(*rate)),
        |rate| {
            let hash = hash_bytes(*rate);
            rust::insert(&mut history, heights[1].up(), block(*rate), hash);
        },
    );
    bench.row(
        "insert_if_absent_behind",
        &next,
        |rate| port.insert_if_absent(heights[0].up(), *rate, Some(*rate)),
        |rate| {
            let hash = hash_bytes(*rate);
            rust::insert_if_absent(&mut history, heights[1].up(), block(*rate), hash);
        },
    );
    let (mut port, mut history) = histories(u64::MAX);
    let firsts = [(); 2].map(|_| Heights(Cell::new(FIRST)));
    let blocks = BOX_HURDLES as u32;
    bench.row(
        "insert_if_absent_in_front",
        &next,
        |rate| {
            let height = firsts[0].down();
            port.insert_if_absent(height, *rate, Some(*rate));
            port.truncate_above(height + blocks - 1);
        },
        |rate| {
            let height = firsts[1].down();
            rust::insert_if_absent(&mut history, height, block(*rate), hash_bytes(*rate));
            rust::truncate_above(&mut history, height + blocks - 1);
        },
    );
}

/// The Rust allocates its targets; the Rattle is lent its memory once, while no clock runs.
fn opening_row(bench: &mut Bench) {
    let mut memory = Memory::new(BOX_TARGETS.len(), BOX_CAPACITY as usize);
    let (mut targets, mut lent) = (BOX_TARGETS, all(&mut memory));
    let opened = black_box(Patched::new as fn(u64, &[u32]) -> Patched);
    bench.row(
        "history_new_11_targets",
        &[(); INPUTS],
        |_| {
            let history = rattle::new(1 << 30, &mut targets, BOX_CAPACITY as usize, &mut lent);
            black_box(&history).refusal
        },
        |_| {
            let history = opened(1 << 30, &BOX_TARGETS);
            black_box(&history).budget
        },
    );
}

/// Puts back the blocks that a cut took.
fn put_back(history: &mut Patched, kept: &Patched) {
    let held = history.blocks.len();
    let taken = kept.blocks.iter().rev().take(kept.blocks.len() - held);
    history.blocks.extend(taken.rev());
    history.txstat_bytes = kept.txstat_bytes;
    history.hashes.clone_from(&kept.hashes);
    let (analog, kept) = (&mut history.analog, &kept.analog);
    let held = analog.hurdles.len();
    analog.hurdles.extend(kept.hurdles.range(held..));
    for (depth, kept) in analog.depths.iter_mut().zip(&kept.depths) {
        let held = depth.pairs.len();
        depth.pairs.extend(kept.pairs.range(held..));
    }
}

/// The newest of 31,000 blocks are cut off, each with a hash by a call of its own, or 1,000 by one; they
/// are put back while no clock runs.
fn cut_rows(bench: &mut Bench) {
    let (mut port, kept) = histories(u64::MAX);
    let (_, mut history) = histories(u64::MAX);
    let (start, mut lent) = (port.state, all(&mut port.memory));
    let mut state = start;
    let tip = FIRST + BOX_HURDLES as u32 - 1;
    let cut = black_box(Patched::truncate_above as fn(&mut Patched, u32));
    let each: Vec<u32> = (1..=100).map(|cut| tip - cut).collect();
    for (name, heights) in [
        ("truncate_above", each),
        ("truncate_above_1000", vec![tip - 1_000]),
    ] {
        bench.row_of_runs(
            name,
            &heights,
            (
                &mut state,
                |state| *state = start,
                |state, height| *state = rattle::truncate_above(*state, *height, &mut lent).state,
            ),
            (
                &mut history,
                |history| put_back(history, &kept),
                |history, height| cut(history, *height),
            ),
        );
    }
}

fn read_rows(bench: &mut Bench) {
    let (mut port, history) = histories(u64::MAX);
    let (state, mut lent) = (port.state, all(&mut port.memory));
    let mut rng = Rng::new(1, "bench history");
    let heights: Vec<u32> = (0..INPUTS)
        .map(|_| FIRST + rng.below(BOX_HURDLES) as u32)
        .collect();
    bench.row(
        "get",
        &heights,
        |height| rattle::get(state, *height, &mut lent),
        |height| rust::get(&history, *height),
    );
    bench.row(
        "entries_31000",
        &[()],
        |_| rattle::entries(state, &mut lent),
        |_| rust::entries(&history),
    );
    bench.row(
        "recent_hashes",
        &[()],
        |_| rattle::recent_hashes(state, &mut lent),
        |_| rust::recent_hashes(&history),
    );
}

/// The rates of 11 targets: worked out, kept, and worked out with stale hurdles, as a preload between held
/// heights leaves them.
fn rate_rows(bench: &mut Bench) {
    let (mut port, mut history) = histories(u64::MAX);
    let (mut state, mut lent) = (port.state, all(&mut port.memory));
    let mut rates = |bench: &mut Bench, name: &str, fresh: bool, stale: bool| {
        bench.row(
            name,
            &[()],
            |_| {
                state.kept &= !fresh;
                state.analog_stale |= stale;
                state = rattle::rates(state, &mut lent).state;
            },
            |_| {
                if fresh {
                    history.rates = None;
                }
                history.analog_stale |= stale;
                rust::rates(&mut history)
            },
        );
    };
    rates(bench, "rates_fresh_11_targets", true, false);
    rates(bench, "rates_kept_11_targets", false, false);
    rates(bench, "rates_stale_11_targets", true, true);
}

pub fn rows(bench: &mut Bench) {
    opening_row(bench);
    cut_rows(bench);
    insert_rows(bench);
    read_rows(bench);
    rate_rows(bench);
}
