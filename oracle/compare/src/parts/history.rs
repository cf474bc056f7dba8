//! Part `history`: the held blocks of fee_history.rs. After each call of a sequence the answer, the held
//! blocks, the byte total, the hashes, the hurdles and their pairs, and the kept rates are compared; and
//! whether a refused call, or one that only reads, left the state and every element of the lent lists.
//! The Rust has no capacity and no refusals: where document 01 refuses a call, by the Rust's own held
//! heights, the Rust is not called.

mod foreign;
mod inputs;
mod model;
mod rattle;
mod replayed;
mod sides;
mod timing;

use super::Part;
use crate::bench::Bench;
use crate::check::{Function, Job, Plan};
use crate::replay::Replay;
use crate::rng::Rng;
use crate::words::{self, Word, Words};
use inputs::Story;
use sides::{
    After, Call, Case, LongCase, Opening, Pairs, Patched, Port, Reply, Rust, Side, State, Step,
    Upstream, last_pairs, run,
};

/// Up to 79 calls on a small history, which is compared after each. No stand-in is concerned: there are
/// too few pairs for a rate.
const CALLS: Function<Case, Vec<After>> =
    Function::new("calls", run::<Port>, run::<Rust<Patched>>).same_upstream(run::<Rust<Upstream>>);

/// The pairs at the end.
const PAIRS: Function<Case, Pairs> =
    Function::new("pairs", last_pairs::<Port>, last_pairs::<Rust<Patched>>)
        .upstream(last_pairs::<Rust<Upstream>>, |_| "up to 79 calls");

/// A digest of the history with every pair of every target is compared after each call, and the history
/// at the end: hundreds of calls about the number of kept hashes, and calls on a small history.
const LONG_CALLS: Function<LongCase, Told> = Function::new(
    "long_calls",
    |case| told::<Port>(&case.0),
    |case| told::<Rust<Patched>>(&case.0),
);

/// The same of thousands of calls on a history that has rates, from the first block on.
const STORY: Function<Story, Told> = Function::new(
    "story",
    |story| told::<Port>(&story.case()),
    |story| told::<Rust<Patched>>(&story.case()),
);

/// What each call was answered with, a digest of what it left, and what all left.
struct Told {
    after: Vec<(Reply, u64)>,
    end: State,
    pairs: Pairs,
}

impl Words for Told {
    fn write(&self, out: &mut Vec<Word>) {
        self.after.write(out);
        self.end.write(out);
        self.pairs.write(out);
    }
}

/// Of a history with every pair of every target.
fn digest(history: &impl Side) -> u64 {
    let mut words = history.state().words();
    history.pairs().write(&mut words);
    words::digest(words.into_iter().map(Word::bits))
}

fn told<S: Side>((opening, steps): &Case) -> Told {
    let (mut history, reply) = S::open(opening);
    let mut after = vec![(reply, digest(&history))];
    for step in steps {
        let reply = history.step(step);
        after.push((reply, digest(&history)));
    }
    Told {
        after,
        end: history.state(),
        pairs: history.pairs(),
    }
}

/// The rates of a story.
const RATES: Function<Story, Vec<Reply>> =
    Function::new("rates", rates_of::<Port>, rates_of::<Rust<Patched>>)
        .upstream(rates_of::<Rust<Upstream>>, rates_region);

fn rates_of<S: Side>(story: &Story) -> Vec<Reply> {
    let (opening, steps) = story.case();
    let (mut history, _) = S::open(&opening);
    let mut out = Vec::new();
    for step in &steps {
        let reply = history.step(step);
        if matches!(step.call, Call::Rates) {
            out.push(reply);
        }
    }
    out
}

fn rates_region(story: &Story) -> &'static str {
    let is_there = |reply: &Reply| reply.answer.chunks(2).any(|rate| rate[0] == 1);
    match rates_of::<Rust<Patched>>(story).iter().any(is_there) {
        true => "with a rate",
        false => "with none",
    }
}

/// Targets, capacity and place of the hurdles; how many these are, place and number of the rows; the number
/// of hashes, the call, and the list that it is lent one place too short: a state that no call returns.
type Foreign = ((u64, u64, u64), (u64, u64, u64), (u64, Step));

/// 1, then 3, then 5; the Rust has no such state. Nothing changes.
const FOREIGN_STATE: Function<Foreign, Reply> = Function::new(
    "foreign_state",
    |((tracked, capacity, first), (hurdles, start, count), (hashes, step)): &Foreign| {
        let opening = Opening {
            budget: 100,
            targets: vec![1; 2],
            capacity: 16,
            short: 0,
        };
        let (mut port, _) = Port::open(&opening);
        let state = &mut port.state;
        state.analog.tracked = *tracked as usize;
        state.analog.capacity = *capacity as usize;
        state.analog.start = *first as usize;
        state.analog.count = *hurdles as usize;
        state.start = *start as usize;
        state.count = *count as usize;
        state.hashes = *hashes as usize;
        port.step(step)
    },
    |foreign| Reply::refused(foreign_refusal(foreign)),
)
.within(|foreign| foreign_refusal(foreign) > 1);

fn foreign_refusal(foreign: &Foreign) -> u8 {
    let ((tracked, capacity, first), (hurdles, start, count), (hashes, step)) = foreign;
    let past =
        |start: &u64, count: &u64| u128::from(*start) + u128::from(*count) > u128::from(*capacity);
    let unequal = matches!(step.short, rattle::OUT_NUMBERS | rattle::OUT_MARKS);
    if unequal && matches!(step.call, Call::Entries | Call::Rates) {
        1
    } else if *tracked > 16 {
        3
    } else if *capacity > 65_536 || past(first, hurdles) || past(start, count) || *hashes > 144 {
        5
    } else {
        0
    }
}

fn draw_foreign(rng: &mut Rng) -> Foreign {
    let mut size = |usual: u64| match rng.below(4) {
        0 => rng.pick(&[15, 16, 17, 65_536, 65_537, u64::MAX - 16, u64::MAX]),
        _ => rng.below(usual),
    };
    let windows = (size(18), size(18), size(14));
    let rows = (size(10), size(14), size(10));
    let hashes = match rng.below(4) {
        0 => rng.pick(&[143, 144, 145, u64::MAX]),
        _ => rng.below(144),
    };
    let step = inputs::draw_steps(rng, 1).remove(0);
    (windows, rows, (hashes, step))
}

/// Blocks, and the marks that somebody else wrote into the memory.
type Marked = Vec<(Option<u64>, u8)>;

/// A stored mark other than 1 is a missing rate: of each height, and of all.
const FOREIGN_MARKS: Function<Marked, Vec<Reply>> = Function::new(
    "foreign_marks",
    |marked| {
        let (mut port, _) = Port::open(&Opening {
            budget: u64::MAX,
            targets: vec![1],
            capacity: marked.len() as u64 + 1,
            short: 0,
        });
        for (height, (rate, _)) in (0..).zip(marked) {
            port.step(&Call::Insert(height, (*rate, 3), None).into());
        }
        for (place, (_, mark)) in marked.iter().enumerate() {
            port.memory.marks[port.state.start + place] = *mark;
        }
        let heights = 0..=marked.len() as u32;
        let mut out: Vec<Reply> = heights.map(|h| port.step(&Call::Get(h).into())).collect();
        out.push(port.step(&Call::Entries.into()));
        out
    },
    |marked| {
        // Where the mark was changed to 1 the number is what is stored for a missing rate.
        let rate = |(rate, mark): &(Option<u64>, u8)| match mark {
            1 => [1, 1, rate.unwrap_or(0), 3],
            _ => [1, 0, 0, 3],
        };
        let rows: Vec<[u64; 4]> = marked.iter().map(rate).collect();
        let mut out: Vec<Reply> = rows.iter().map(|row| Reply::of(row.to_vec())).collect();
        out.push(Reply::of(vec![0; 4]));
        let entry = |(height, row): (u64, &[u64; 4])| [height, row[1], row[2], row[3]];
        out.push(Reply::of((0..).zip(&rows).flat_map(entry).collect()));
        out
    },
);

fn draw_marked(rng: &mut Rng) -> Marked {
    let mark = |rng: &mut Rng| (rng.below(3) > 0).then(|| rng.word());
    let count = rng.below(12);
    let block = |_| (mark(rng), rng.pick(&[0, 1, 1, 2, 3, 128, 129, 255]));
    (0..count).map(block).collect()
}

/// Budgets, targets and capacities about the limits; 65,536 itself is a capacity of the pair windows' cases.
const SIZES: [(u64, u32, u64); 11] = [
    (0, 0, 0),
    (100, 0, 5),
    (100, 1, 0),
    (100, 1, 1),
    (0, 1, 2),
    (u64::MAX, 2, 2),
    (30, 16, 6),
    (100, 17, 8),
    (100, 17, 65_537),
    (100, 1, 65_537),
    (100, 0, u64::MAX),
];

/// Calls about the ends of heights, byte counts and capacities.
fn limit_calls() -> Vec<Call> {
    let top = u32::MAX;
    let block = |rate, bytes| (Some(rate), bytes);
    vec![
        Call::TruncateAbove(top),
        Call::Insert(top, block(7, 10), Some(1)),
        Call::TruncateAbove(top - 1),
        Call::Get(top),
        Call::TruncateAbove(top),
        Call::Insert(top, block(8, 10), Some(2)),
        Call::Insert(top, (None, 20), None),
        Call::InsertIfAbsent(0, block(9, 10), Some(3)),
        Call::InsertIfAbsent(0, block(5, 10), Some(4)),
        Call::Entries,
        Call::RecentHashes,
        Call::Rates,
        Call::Rates,
        Call::InsertIfAbsent(1, block(6, 1), None),
        Call::InsertIfAbsent(2, block(6, u64::MAX), Some(5)),
        Call::TruncateAbove(0),
        Call::Insert(0, block(4, u64::MAX), Some(6)),
        Call::Insert(1, block(3, u64::MAX), Some(7)),
        Call::Rates,
        Call::Get(0),
        Call::Entries,
        Call::RecentHashes,
    ]
}

/// Openings about the limits with calls on what they leave: with each list too short in turn, and with exact
/// lists.
fn opening_cases() -> Vec<Case> {
    let mut cases = Vec::new();
    for (budget, tracked, capacity) in SIZES {
        for short in 0..=rattle::EXACT {
            for call_short in 0..=rattle::EXACT {
                let opening = Opening {
                    budget,
                    targets: (0..tracked).collect(),
                    capacity,
                    short,
                };
                let step = |call| Step {
                    call,
                    short: call_short,
                };
                cases.push((opening, limit_calls().into_iter().map(step).collect()));
            }
        }
    }
    cases
}

pub struct HeldBlocks;

impl Part for HeldBlocks {
    fn name(&self) -> &'static str {
        "history"
    }

    fn jobs(&self, plan: &Plan) -> Vec<Job> {
        vec![
            Job::over(CALLS, opening_cases()),
            Job::random(CALLS, plan.scaled(100_000), inputs::draw_calls),
            Job::random(PAIRS, plan.scaled(30_000), inputs::draw_calls),
            Job::random(LONG_CALLS, plan.scaled(1_000), |rng| {
                LongCase(inputs::draw_long_calls(rng))
            }),
            Job::random(LONG_CALLS, plan.scaled(30_000), |rng| {
                LongCase(inputs::draw_calls(rng))
            }),
            Job::random(FOREIGN_STATE, plan.scaled(500_000), draw_foreign),
            Job::random(FOREIGN_MARKS, plan.scaled(200_000), draw_marked),
            Job::random(STORY, plan.scaled(80), inputs::draw_story),
            Job::random(RATES, plan.scaled(200), inputs::draw_story),
            Job::random(
                foreign::FOREIGN_CALLS,
                plan.scaled(200_000),
                foreign::draw_used,
            ),
            Job::random(
                foreign::FOREIGN_RATES,
                plan.scaled(5_000),
                foreign::draw_rated,
            ),
        ]
    }

    fn replay(&self, replay: &mut Replay) {
        replayed::ask(replay);
    }

    fn bench(&self, bench: &mut Bench) {
        timing::rows(bench);
    }
}

#[cfg(test)]
mod tests {
    use super::*;
    use std::collections::HashMap;

    fn case(budget: u64, capacity: u64, calls: Vec<Call>) -> Case {
        let opening = Opening {
            budget,
            targets: vec![1],
            capacity,
            short: 0,
        };
        (opening, calls.into_iter().map(Step::from).collect())
    }

    /// Refusals and held heights after each call, which both sides agree on.
    fn heights(case: &Case) -> Vec<(u8, Vec<u32>)> {
        let (port, rust) = (run::<Port>(case), run::<Rust<Patched>>(case));
        assert!(crate::words::same(&port.words(), &rust.words()));
        let after = rust.into_iter().skip(1);
        let heights = |state: State| state.blocks.into_iter().map(|(height, _)| height).collect();
        after
            .map(|after| (after.reply.refusal, heights(after.state)))
            .collect()
    }

    const BLOCK: (Option<u64>, u64) = (Some(5), 10);

    /// Not so the comment: "Drop every height above `height`".
    #[test]
    fn a_cut_above_the_largest_height_drops_it() {
        let top = u32::MAX;
        let calls = vec![
            Call::Insert(top - 1, BLOCK, None),
            Call::Insert(top, BLOCK, None),
            Call::TruncateAbove(top),
        ];
        let after = heights(&case(100, 4, calls));
        assert_eq!(after[1], (0, vec![top - 1, top]));
        assert_eq!(after[2], (0, vec![top - 1]));
    }

    #[test]
    fn a_full_history_refuses() {
        let calls = vec![
            Call::Insert(4, BLOCK, None),
            Call::Insert(6, BLOCK, None),
            // No room above; a reorg has room.
            Call::Insert(7, BLOCK, None),
            Call::Insert(6, BLOCK, None),
            // Absent, even if it would be evicted; held.
            Call::InsertIfAbsent(5, BLOCK, None),
            Call::InsertIfAbsent(3, (Some(5), 1_000), None),
            Call::InsertIfAbsent(4, BLOCK, None),
        ];
        let after = heights(&case(100, 2, calls));
        let refusals: Vec<u8> = after.iter().map(|(refusal, _)| *refusal).collect();
        assert_eq!(refusals, [0, 0, 4, 0, 4, 4, 0]);
        assert!(after[1..].iter().all(|(_, heights)| *heights == [4, 6]));
    }

    #[test]
    fn the_oldest_is_evicted() {
        let connect = |height| Call::Insert(height, BLOCK, Some(u64::from(height)));
        let after = heights(&case(25, 8, (1..5).map(connect).collect()));
        let held: Vec<Vec<u32>> = after.into_iter().map(|(_, heights)| heights).collect();
        assert_eq!(held, [vec![1], vec![1, 2], vec![2, 3], vec![3, 4]]);
    }

    #[test]
    fn calls_are_of_every_kind() {
        let mut rng = Rng::new(1, "kinds");
        let mut refusals = HashMap::new();
        let (mut stale, mut most) = (0, 0);
        for _ in 0..1_000 {
            for after in run::<Rust<Patched>>(&inputs::draw_calls(&mut rng)) {
                *refusals.entry(after.reply.refusal).or_insert(0) += 1;
                stale += u64::from(after.state.stale);
            }
        }
        for _ in 0..20 {
            for after in run::<Rust<Patched>>(&inputs::draw_long_calls(&mut rng)) {
                most = most.max(after.state.hashes.len());
            }
        }
        assert_eq!(refusals.len(), 5, "{refusals:?}");
        assert!(refusals.values().all(|count| *count > 10), "{refusals:?}");
        assert!(stale > 100, "{stale}");
        assert_eq!(most, 144);
    }

    #[test]
    fn a_changed_list_is_a_difference() {
        let (opening, steps) = case(100, 4, vec![Call::Insert(7, BLOCK, Some(1))]);
        let (mut port, _) = Port::open(&opening);
        assert!(port.step(&steps[0]).kept);
        let before = (port.state, port.memory.clone());
        let reply = Reply::of(Vec::new());
        assert!(port.keeps(&Call::Get(7), &reply, &before));
        port.memory.hash_bytes[40] ^= 1;
        assert!(!port.keeps(&Call::Get(7), &reply, &before));
        port.memory = before.1.clone();
        port.memory.out_sizes[0] ^= 1;
        assert!(!port.keeps(&Call::RecentHashes, &reply, &before));
        assert!(port.keeps(&Call::Entries, &reply, &before));
        port.memory = before.1.clone();
        port.state.txstat_bytes += 1;
        assert!(!port.keeps(&Call::TruncateAbove(7), &Reply::refused(5), &before));
    }
}
