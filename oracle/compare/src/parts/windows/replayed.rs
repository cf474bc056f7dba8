//! The questions that the program `windows_replay` replays.

use super::inputs::{
    CONFIDENCES, draw_confidence, draw_hurdle, draw_list, draw_target, length_for,
};
use super::sides::{Call, Opening, Patched, Port, Rust, Side, Step};
use super::{ANALOG_LOOKBACK, LN_RATE, LOG_QUANTILE, LOWER_MEDIAN};
use crate::check::Function;
use crate::lent::RateFields;
use crate::replay::Replay;
use crate::rng::Rng;
use crate::values::boundary_words;

/// The places of the windows that are called.
const CAPACITY: u64 = 24;

/// Targets, and calls by kind and word: 0 and 1 push it, 2 and 3 pop, each behind and in front, 4
/// rebuilds.
type Calls = (Vec<u32>, Vec<(u64, u64)>);

/// A digest of the refusals, the number of hurdles, a digest of them, and one of every target's number of
/// pairs and pairs.
type Digests = ((u64, u64), (u64, u64));

const WINDOWS: Function<Calls, Digests> =
    Function::new("windows", called::<Port>, called::<Rust<Patched>>);

/// A word added to the digest of those before it turned by a digit.
fn mix(digest: u64, word: u64) -> u64 {
    digest.rotate_left(1) ^ word
}

fn step((kind, word): (u64, u64)) -> Step {
    let call = match kind {
        0 => Call::PushBack(word),
        1 => Call::PushFront(word),
        2 => Call::PopBack,
        3 => Call::PopFront,
        _ => Call::Rebuild((0..word % 32).map(|place| word ^ place).collect()),
    };
    call.into()
}

fn called<S: Side>((targets, calls): &Calls) -> Digests {
    let (mut windows, reply) = S::open(&Opening {
        targets: targets.clone(),
        capacity: CAPACITY,
        short: 0,
    });
    let mut refusals = u64::from(reply.answer.refusal);
    for call in calls {
        let reply = windows.step(&step(*call));
        refusals = mix(refusals, u64::from(reply.answer.refusal));
    }
    let state = windows.state();
    let hurdles = state.hurdles.iter().fold(0, |d, hurdle| mix(d, *hurdle));
    let pairs = state.pairs.iter().fold(0, |d, (count, pairs)| {
        let pair = |d, (before, ahead): &(f64, u64)| mix(mix(d, before.to_bits()), *ahead);
        pairs.iter().fold(mix(d, *count as u64), pair)
    });
    ((refusals, state.hurdles.len() as u64), (hurdles, pairs))
}

/// The places of the windows that are scanned.
const PLACES: u64 = 2_304;

/// The generator's seed, the level and the mask of what every third hurdle adds to it; how many of the
/// last hurdles have another level, by how much it is higher, and the number of hurdles; the target, the
/// confidence and the length of the scratch list.
type Scanned = ((u64, u64, u64), (u64, u64, u64), (u32, f64, u64));

const RATE: Function<Scanned, RateFields> =
    Function::new("rate_sat_kvb", scanned::<Port>, scanned::<Rust<Patched>>)
        .within(|&(_, (_, _, length), (_, _, scratch))| length <= PLACES && scratch + 1 >= PLACES);

fn hurdles(&((seed, level, mask), (last, step, length), _): &Scanned) -> Vec<u64> {
    let mut x = seed;
    let hurdle = |place| {
        x ^= x << 13;
        x ^= x >> 7;
        x ^= x << 17;
        let spread = if place % 3 == 0 { x & mask } else { 0 };
        let higher = if length - place <= last { step } else { 0 };
        level.wrapping_add(spread).wrapping_add(higher)
    };
    (0..length).map(hurdle).collect()
}

fn scanned<S: Side>(question: &Scanned) -> RateFields {
    let (target, confidence, scratch) = question.2;
    let (mut windows, _) = S::open(&Opening {
        targets: vec![target],
        capacity: PLACES,
        short: 0,
    });
    windows.step(&Call::Rebuild(hurdles(question)).into());
    let rate = Step {
        call: Call::Rate(target, confidence),
        short: if scratch < PLACES {
            super::rattle::SCRATCH
        } else {
            0
        },
    };
    windows.step(&rate).answer
}

fn draw_calls(rng: &mut Rng) -> Calls {
    let targets = (0..1 + rng.below(3)).map(|_| draw_target(rng)).collect();
    let call = |_| {
        let kind = match rng.below(16) {
            0 => 4,
            1 => 2,
            2 => 3,
            kind => kind % 2,
        };
        (kind, draw_hurdle(rng))
    };
    (targets, (0..40).map(call).collect())
}

/// Under 200, about 200 or more in band; at times all in band, or none.
fn draw_scanned(rng: &mut Rng) -> Scanned {
    let target = rng.pick(&[0, 1, 2, 6, 12, 24, 40, 144]);
    let pairs = 1_999 + rng.below(60);
    let level = rng.pick(&[0, 1, 1_000, 20_000, 1 << 62]);
    let mask = rng.pick(&[0, 0xFF, 0xFFFF]);
    let last = 190 + rng.below(20);
    let step = rng.pick(&[0, 300, 5_000, u64::MAX - 500]);
    let length = length_for(target, pairs);
    (
        (rng.word(), level, mask),
        (last, step, length),
        (target, draw_confidence(rng), PLACES),
    )
}

/// The confidences at one history with fewer than 200 in band and equals at the cut; then 1,999 and 2,000
/// pairs, and a scratch list that is too short.
fn fixed_scanned() -> Vec<Scanned> {
    let question = |last, pairs, confidence, scratch| {
        (
            (0x9E37_79B9, 20_000, 0x3FFF),
            (last, 40_000, length_for(1, pairs)),
            (1, confidence, scratch),
        )
    };
    let mut questions: Vec<Scanned> = CONFIDENCES
        .map(|confidence| question(150, 2_050, confidence, PLACES))
        .into();
    questions.extend((198..206).map(|last| question(last, 2_050, 0.95, PLACES)));
    questions.push(question(150, 1_999, 0.95, PLACES));
    questions.push(question(150, 2_000, 0.95, PLACES));
    questions.push(question(150, 2_000, 0.95, PLACES - 1));
    questions
}

pub fn ask(replay: &mut Replay) {
    replay.ask(
        &ANALOG_LOOKBACK,
        [0, 1, 12, 15, 16, 24, 575, 576, 577, u32::MAX],
    );
    replay.ask(&LN_RATE, boundary_words().into_iter().step_by(5));
    replay.ask(&LOWER_MEDIAN, [vec![], vec![5, 1, 4, 2]]);
    replay.ask_random(&LOWER_MEDIAN, 24, |rng| {
        let length = rng.below(24);
        draw_list(rng, length)
    });
    let list = vec![3, 0, 900, 7, 0, 20_000, 7];
    replay.ask(&LOG_QUANTILE, CONFIDENCES.map(|c| (c, list.clone())));
    replay.ask(&LOG_QUANTILE, [(0.5, vec![]), (f64::NAN, vec![])]);
    replay.ask_random(&LOG_QUANTILE, 24, |rng| {
        let length = rng.below(20);
        (draw_confidence(rng), draw_list(rng, length))
    });
    // Case L before and after its fourth hurdle; 16 targets and 17.
    let pushes = |hurdles: &[u64]| hurdles.iter().map(|hurdle| (0, *hurdle)).collect();
    replay.ask(
        &WINDOWS,
        [[5, 9, 7].as_slice(), &[5, 9, 7, 8]].map(|list| (vec![1], pushes(list))),
    );
    replay.ask(
        &WINDOWS,
        [16, 17].map(|count| ((0..count).collect(), pushes(&[4, 3, 2, 1, 5]))),
    );
    replay.ask_random(&WINDOWS, 16, draw_calls);
    replay.ask(&RATE, fixed_scanned());
    replay.ask_random(&RATE, 30, draw_scanned);
}
