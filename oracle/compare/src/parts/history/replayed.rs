//! The questions that the program `history_replay` replays.

use super::inputs::draw_budget;
use super::sides::{Call, Hash, Opening, Patched, Port, Rust, Side, Step};
use crate::check::Function;
use crate::parts::windows::inputs::{draw_hurdle, draw_target, length_for};
use crate::replay::Replay;
use crate::rng::Rng;
use crate::words::{Word, Words};

/// The places of the history that is called.
const CAPACITY: u64 = 24;

/// A call in two words. Of the first the upper half is the height, and the last two digits the kind: 0
/// connects, 1 preloads, else a cut. `RATE`: the rate is there, and is the second word. `BYTES`: the byte
/// count is the second word, and not its last three decimal digits. `HASH`: there is one.
type Coded = (u64, u64);

const RATE: u64 = 4;
const BYTES: u64 = 8;
const HASH: u64 = 16;

/// A budget, targets and calls.
type Calls = (u64, Vec<u32>, Vec<Coded>);

/// A digest of the opening's refusal and, for each call, of its refusal and the block that it left at its
/// height; the total, the number of hurdles and whether they are stale; the number of rows and a digest of
/// them; the same of the hashes.
type Digests = (u64, (u64, u64, bool), ((u64, u64), (u64, u64)));

const CALLS: Function<Calls, Digests> =
    Function::new("calls", called::<Port>, called::<Rust<Patched>>);

/// A word added to the digest of those before it turned by a digit.
fn mix(digest: u64, word: u64) -> u64 {
    digest.rotate_left(1) ^ word
}

fn height_of(code: u64) -> u32 {
    (code >> 32) as u32
}

fn step((code, word): Coded) -> Step {
    let height = height_of(code);
    let rate = (code & RATE != 0).then_some(word);
    let bytes = if code & BYTES != 0 {
        word
    } else {
        word % 1_000
    };
    let hash: Hash = (code & HASH != 0).then_some(word);
    let call = match code % 4 {
        0 => Call::Insert(height, (rate, bytes), hash),
        1 => Call::InsertIfAbsent(height, (rate, bytes), hash),
        _ => Call::TruncateAbove(height),
    };
    call.into()
}

fn called<S: Side>((budget, targets, calls): &Calls) -> Digests {
    let (mut history, reply) = S::open(&Opening {
        budget: *budget,
        targets: targets.clone(),
        capacity: CAPACITY,
        short: 0,
    });
    let mut digest = u64::from(reply.refusal);
    for call in calls {
        digest = mix(digest, history.step(&step(*call)).refusal.into());
        let held = history.step(&Call::Get(height_of(call.0)).into()).answer;
        digest = match held[..] {
            [1, 1, rate, bytes] => mix(mix(mix(digest, 2), rate), bytes),
            [1, _, _, bytes] => mix(mix(digest, 1), bytes),
            _ => mix(digest, 0),
        };
    }
    let state = history.state();
    let rows = history.step(&Call::Entries.into()).answer;
    let rows = rows.into_iter().fold(0, mix);
    // As they stand in lists of zeros.
    let mut heights = [0; 144];
    let mut bytes = [[0; 32]; 144];
    for (place, (height, hash)) in state.hashes.iter().enumerate() {
        heights[place] = u64::from(*height);
        bytes[place] = hash.map(u64::from);
    }
    let hashes = heights.into_iter().chain(bytes.into_iter().flatten());
    let hashes = hashes.fold(0, mix);
    let count = |length: usize| length as u64;
    (
        digest,
        (state.total, count(state.hurdles.len()), state.stale),
        (
            (count(state.blocks.len()), rows),
            (count(state.hashes.len()), hashes),
        ),
    )
}

/// The places of the history that is asked for rates.
const PLACES: u64 = 2_304;

/// The generator's seed, the level and the mask of what every third rate adds to it; how many of the last
/// rates have another level, by how much it is higher, and the number of blocks; two targets, whether a
/// block comes between them then, and the length of the scratch list.
type Rated = ((u64, u64, u64), (u64, u64, u64), (u32, u32, (bool, u64)));

const RATES: Function<Rated, Listed> =
    Function::new("rates", rated::<Port>, rated::<Rust<Patched>>).within(
        |&(_, (_, _, length), (_, _, (_, scratch)))| length <= PLACES && scratch + 1 >= PLACES,
    );

/// The refusal and the answer's lists of three places: of rates that are worked out, and again of kept
/// ones. No number of words before them.
struct Listed(Vec<u64>);

impl Words for Listed {
    fn write(&self, out: &mut Vec<Word>) {
        out.extend(self.0.iter().copied().map(Word::Int));
    }
}

/// The rate of the block at a place with so many after it and itself.
fn rate_at(((_, level, mask), (last, step, _), _): &Rated, place: u64, left: u64, x: u64) -> u64 {
    let spread = if place.is_multiple_of(3) { x & mask } else { 0 };
    let higher = if left <= *last { *step } else { 0 };
    level.wrapping_add(spread).wrapping_add(higher)
}

fn rated<S: Side>(question: &Rated) -> Listed {
    let &((seed, ..), (_, _, length), (first, second, (between, scratch))) = question;
    let (mut history, _) = S::open(&Opening {
        budget: u64::MAX,
        targets: vec![first, second],
        capacity: PLACES,
        short: 0,
    });
    let mut x = seed;
    for place in 0..length {
        x ^= x << 13;
        x ^= x >> 7;
        x ^= x << 17;
        let rate = rate_at(question, place, length - place, x);
        history.step(&Call::Insert(2 * place as u32, (Some(rate), 1), None).into());
    }
    if between {
        let rate = rate_at(question, 1, 1 << 32, 0);
        history.step(&Call::InsertIfAbsent(1_001, (Some(rate), 1), None).into());
    }
    let mut out = Vec::new();
    for _ in 0..2 {
        let reply = history.step(&Step {
            call: Call::Rates,
            short: if scratch < PLACES {
                super::rattle::SCRATCH
            } else {
                0
            },
        });
        out.push(u64::from(reply.refusal));
        let mut answer = reply.answer;
        // The lists keep their rest.
        answer.resize(6, 77);
        out.extend(answer);
    }
    Listed(out)
}

/// Under 200, about 200 or more in band; at times all in band, or none.
fn draw_rated(rng: &mut Rng) -> Rated {
    let first = rng.pick(&[0, 1, 2, 6, 12, 24, 40, 144]);
    let pairs = 1_999 + rng.below(60);
    let level = rng.pick(&[0, 1, 1_000, 20_000, 1 << 62]);
    let mask = rng.pick(&[0, 0xFF, 0xFFFF]);
    let last = 190 + rng.below(20);
    let step = rng.pick(&[0, 300, 5_000, u64::MAX - 500]);
    let second = rng.pick(&[0, 1, first, 3, 1_008]);
    let scratch = PLACES - u64::from(rng.below(8) == 0);
    (
        (rng.word(), level, mask),
        (last, step, length_for(first, pairs)),
        (first, second, (rng.below(2) == 0, scratch)),
    )
}

/// Heights about one that a connect has passed, most calls connects.
fn draw_calls(rng: &mut Rng) -> Calls {
    let base = rng.pick(&[0, 1, 700_000, u64::from(u32::MAX) - 20]);
    let large = rng.below(4) == 0;
    let mut tip = base;
    let call = |_| {
        let kind = rng.pick(&[0, 0, 0, 0, 1, 1, 2]);
        tip = match (kind, rng.below(8)) {
            (_, 0) => rng.pick(&[0, u64::from(u32::MAX), base]),
            (0, 1) | (2, _) => tip.saturating_sub(rng.below(4)),
            (0, _) => tip + 1,
            (_, 1..4) => base.saturating_sub(rng.below(3)),
            _ => base + rng.below(30),
        };
        tip = tip.min(u32::MAX.into());
        let rate = RATE * u64::from(rng.below(4) > 0);
        let bytes = BYTES * u64::from(large && rng.below(3) == 0);
        let hash = HASH * u64::from(rng.below(4) > 0);
        let word = if rng.below(2) == 0 {
            draw_hurdle(rng)
        } else {
            rng.word()
        };
        (tip << 32 | kind | rate | bytes | hash, word)
    };
    let calls = (0..40).map(call).collect();
    let targets = (0..1 + rng.below(3)).map(|_| draw_target(rng)).collect();
    (draw_budget(rng, 20), targets, calls)
}

/// Connects at heights that follow on one another.
fn connects(first: u32, count: u32) -> Vec<Coded> {
    let connect = |height| {
        (
            u64::from(first + height) << 32 | RATE | HASH,
            7 + u64::from(height),
        )
    };
    (0..count).map(connect).collect()
}

pub fn ask(replay: &mut Replay) {
    // A full history, and one connect more; 16 targets and 17; the largest height, and a cut above it.
    replay.ask(
        &CALLS,
        [24, 25].map(|count| (u64::MAX, vec![1], connects(100, count))),
    );
    replay.ask(
        &CALLS,
        [16, 17].map(|count| (u64::MAX, (0..count).collect(), connects(0, 6))),
    );
    let mut top = connects(u32::MAX - 2, 3);
    top.push((u64::from(u32::MAX) << 32 | 2, 0));
    replay.ask(&CALLS, [(u64::MAX, vec![1], top)]);
    // Budgets of nothing, of one block and of a few.
    replay.ask(
        &CALLS,
        [0, 7, 8, 30].map(|budget| (budget, vec![1, 1], connects(5, 8))),
    );
    replay.ask_random(&CALLS, 30, draw_calls);
    replay.ask_random(&RATES, 24, draw_rated);
}
