//! Hurdles, confidences and calls to compare pair windows on.

use super::rattle;
use super::sides::{Call, Case, Opening, Step};
use crate::rng::Rng;
use crate::words::{Input, Word, Words};
use patched_mempool::fee_analog::analog_lookback;

/// The targets of the box.
pub const BOX_TARGETS: [u32; 11] = [1, 2, 3, 4, 5, 6, 12, 24, 144, 504, 1008];
/// The hurdles that it holds, and its capacity.
pub const BOX_HURDLES: u64 = 31_000;
pub const BOX_CAPACITY: u64 = 32_768;

/// Hurdles drawn from a seed.
#[derive(Clone, Copy)]
pub struct Stretch {
    pub kind: u64,
    pub seed: u64,
    pub length: u64,
}

impl Words for Stretch {
    fn write(&self, out: &mut Vec<Word>) {
        (self.kind, self.seed, self.length).write(out);
    }
}

/// Fewer hurdles, or those of a smaller seed.
impl Input for Stretch {
    fn smaller(&self) -> Vec<Stretch> {
        let Stretch { kind, seed, length } = *self;
        let fewer = length.smaller().into_iter();
        let fewer = fewer.map(|length| Stretch { kind, seed, length });
        let other = seed.smaller().into_iter();
        let other = other.map(|seed| Stretch { kind, seed, length });
        fewer.chain(other).collect()
    }
}

/// Constant, calm, spiking, mostly 0, near 2^64, of few levels, with a step to another level, any.
pub const KINDS: u64 = 8;
pub const CALM: u64 = 1;
pub const SPIKING: u64 = 2;
pub const STEP: u64 = 6;

impl Stretch {
    pub fn hurdles(&self) -> Vec<u64> {
        let mut rng = Rng::new(self.seed, "hurdles");
        let constant = rng.pick(&[0, 1, 7, 1_000, 1_000_000, u64::MAX]);
        let mut level = 5_000.0;
        let hurdle = |place: u64| match self.kind {
            0 => constant,
            1 => market(&mut rng, &mut level),
            // A dozen blocks in 300 at fifty times the level.
            2 if place % 300 < 12 => 50 * market(&mut rng, &mut level),
            2 => market(&mut rng, &mut level),
            3 if rng.below(4) > 0 => 0,
            3 => rng.below(3_000),
            4 => u64::MAX - rng.below(2_000),
            5 => rng.pick(&[100, 125, 126, 1_000, 1_250]),
            6 => stepped(&mut rng, self.length - place, self.seed),
            _ => rng.of_any_length(),
        };
        (0..self.length).map(hurdle).collect()
    }
}

/// Hurdles whose level goes up or down by at most 5 % a block.
fn market(rng: &mut Rng, level: &mut f64) -> u64 {
    *level = (*level * (0.95 + 0.1 * rng.fraction())).clamp(100.0, 1e6);
    *level as u64
}

/// One level until some 150 to 250 before the end, and another then. Two of three hurdles are the level
/// itself, and the third above it: the medians of three are equal, and the hurdles are not.
fn stepped(rng: &mut Rng, left: u64, seed: u64) -> u64 {
    let level = if left <= 150 + seed % 100 {
        1_000
    } else {
        100_000
    };
    match (left + seed / 100) % 3 {
        0 => level + rng.below(level),
        _ => level,
    }
}

/// As many hurdles as give a target a number of pairs.
pub fn length_for(target: u32, pairs: u64) -> u64 {
    analog_lookback(target) as u64 + u64::from(target.max(1)) - 1 + pairs
}

/// From 0 to 1 with both ends, and what is no confidence.
pub const CONFIDENCES: [f64; 16] = [
    0.0,
    -0.0,
    1.0,
    f64::NAN,
    -1.0,
    0.999,
    0.99,
    0.95,
    0.5,
    0.005,
    0.0025,
    5e-324,
    -5e-324,
    1.0 + f64::EPSILON,
    1.0 - f64::EPSILON / 2.0,
    f64::INFINITY,
];

pub fn draw_confidence(rng: &mut Rng) -> f64 {
    match rng.below(8) {
        0 => rng.pick(&CONFIDENCES),
        1 => rng.any_f64(),
        2 => rng.below(201) as f64 / 200.0,
        _ => rng.fraction(),
    }
}

/// A rate asked of windows with one target that were given these hurdles, and the list that the question
/// is lent one place too short, as in a `Step`.
#[derive(Clone)]
pub struct Quote {
    pub stretch: Stretch,
    pub target: u32,
    pub confidence: f64,
    pub short: u8,
}

impl Words for Quote {
    fn write(&self, out: &mut Vec<Word>) {
        self.stretch.write(out);
        (self.target, self.confidence, self.short).write(out);
    }
}

impl Input for Quote {
    fn smaller(&self) -> Vec<Quote> {
        let parts = (self.stretch, (self.target, self.confidence), self.short).smaller();
        let quote = |(stretch, (target, confidence), short)| Quote {
            stretch,
            target,
            confidence,
            short,
        };
        parts.into_iter().map(quote).collect()
    }
}

impl Quote {
    pub fn case(&self) -> Case {
        let opening = Opening {
            targets: vec![self.target],
            capacity: self.stretch.length,
            short: 0,
        };
        let question = Step {
            call: Call::Rate(self.target, self.confidence),
            short: self.short,
        };
        let rebuild = Call::Rebuild(self.stretch.hurdles()).into();
        (opening, vec![rebuild, question])
    }
}

/// Every kind of hurdles, with 1,999, 2,000 and 2,001 pairs, at every confidence; and levels that step
/// some 200 before the end. At 0.95 also with each list too short in turn, and with exact lists.
pub fn fixed_quotes() -> Vec<Quote> {
    let mut quotes = Vec::new();
    let mut quote = |kind, seed, pairs, target| {
        let length = length_for(target, pairs);
        let stretch = Stretch { kind, seed, length };
        let asked = |confidence, short| Quote {
            stretch,
            target,
            confidence,
            short,
        };
        quotes.extend(CONFIDENCES.map(|confidence| asked(confidence, 0)));
        quotes.extend((rattle::HURDLES..=rattle::EXACT).map(|short| asked(0.95, short)));
    };
    for target in [0, 1, 2, 6, 12, 24, 144, 504, 1008] {
        for kind in 0..KINDS {
            for pairs in [1_999, 2_000, 2_001] {
                quote(kind, u64::from(target), pairs, target);
            }
        }
    }
    for seed in (45..60).flat_map(|seed| [seed, seed + 100, seed + 200]) {
        quote(STEP, seed, 2_050, 1);
    }
    quotes
}

pub fn draw_quote(rng: &mut Rng) -> Quote {
    let target = match rng.below(4) {
        0 => rng.pick(&BOX_TARGETS),
        1 => rng.below(40) as u32,
        _ => rng.below(4) as u32,
    };
    let pairs = match rng.below(8) {
        0 => 1_998 + rng.below(5),
        1 => 2_000 + rng.below(4_000),
        _ => 2_000 + rng.below(200),
    };
    let stretch = Stretch {
        kind: rng.below(KINDS),
        seed: rng.of_bits(16),
        length: length_for(target, pairs),
    };
    Quote {
        stretch,
        target,
        confidence: draw_confidence(rng),
        short: rattle::EXACT * (stretch.seed % 2) as u8,
    }
}

pub fn draw_target(rng: &mut Rng) -> u32 {
    match rng.below(8) {
        0 => 0,
        1 => rng.pick(&[16, 17, 20, 24, 40, u32::MAX - 1, u32::MAX]),
        _ => 1 + rng.below(8) as u32,
    }
}

pub fn draw_hurdle(rng: &mut Rng) -> u64 {
    match rng.below(4) {
        0 => rng.below(3),
        1 => rng.of_any_length(),
        2 => u64::MAX - rng.below(3),
        _ => rng.below(100_000),
    }
}

/// One call in eight is lent a list that is too short, and four of the others exact lists.
pub fn draw_short(rng: &mut Rng) -> u8 {
    match rng.below(8) {
        0 => rng.pick(&[
            rattle::HURDLES,
            rattle::BEFORES,
            rattle::AHEADS,
            rattle::SCRATCH,
        ]),
        1..5 => rattle::EXACT,
        _ => 0,
    }
}

/// More pushes than pops at the end that `back` names, now and then a rebuild about as long as the
/// capacity.
pub fn draw_call(rng: &mut Rng, opening: &Opening, back: u64) -> Call {
    let capacity = opening.capacity.min(70_000);
    let target = |rng: &mut Rng| match opening.targets.len() as u64 {
        0 => draw_target(rng),
        count if rng.below(4) > 0 => opening.targets[rng.below(count) as usize],
        _ => draw_target(rng),
    };
    match rng.below(32) {
        0 => {
            let length = (capacity + rng.below(5)).saturating_sub(rng.below(capacity.min(40) + 3));
            Call::Rebuild((0..length).map(|_| draw_hurdle(rng)).collect())
        }
        1 => Call::Pairs(target(rng)),
        2 => Call::Rate(target(rng), draw_confidence(rng)),
        3..6 => Call::PopBack,
        6..9 => Call::PopFront,
        _ if rng.below(10) < back => Call::PushBack(draw_hurdle(rng)),
        _ => Call::PushFront(draw_hurdle(rng)),
    }
}

fn draw_opening(rng: &mut Rng) -> Opening {
    let count = match rng.below(8) {
        0 => rng.pick(&[0, 15, 16, 17]),
        _ => 1 + rng.below(4),
    };
    let capacity = match rng.below(16) {
        0 => rng.below(3),
        1 => rng.pick(&[65_537, 1 << 32, u64::MAX / 16, u64::MAX]),
        _ => 3 + rng.below(40),
    };
    // A capacity that is refused takes no more memory than one target's.
    let count = if capacity > 65_536 {
        count.min(1)
    } else {
        count
    };
    Opening {
        targets: (0..count).map(|_| draw_target(rng)).collect(),
        capacity,
        short: draw_short(rng) * u8::from(rng.below(4) == 0),
    }
}

/// Up to 79 calls.
pub fn draw_calls(rng: &mut Rng) -> Case {
    let opening = draw_opening(rng);
    let back = rng.below(11);
    let steps = (0..rng.below(80)).map(|_| Step {
        call: draw_call(rng, &opening, back),
        short: draw_short(rng),
    });
    let steps = steps.collect();
    (opening, steps)
}

/// Windows that are rebuilt from hurdles and then called, with calls drawn from the hurdles' seed.
#[derive(Clone)]
pub struct Story {
    pub targets: Vec<u32>,
    pub capacity: u64,
    pub stretch: Stretch,
    pub calls: u64,
}

impl Words for Story {
    fn write(&self, out: &mut Vec<Word>) {
        self.targets.write(out);
        (self.capacity, self.calls).write(out);
        self.stretch.write(out);
    }
}

/// Fewer calls, hurdles or targets.
impl Input for Story {
    fn smaller(&self) -> Vec<Story> {
        let parts = ((self.calls, self.stretch), self.targets.clone()).smaller();
        let story = |((calls, stretch), targets)| Story {
            targets,
            calls,
            stretch,
            capacity: self.capacity,
        };
        parts.into_iter().map(story).collect()
    }
}

impl Story {
    /// Runs of pushes and pops at one end or at both, so that what is held reaches the ends of its memory;
    /// a rate, a number of pairs or a refused call at times.
    pub fn case(&self) -> Case {
        let mut rng = Rng::new(self.stretch.seed, "story");
        let opening = Opening {
            targets: self.targets.clone(),
            capacity: self.capacity,
            short: 0,
        };
        let mut steps = vec![Step::from(Call::Rebuild(self.stretch.hurdles()))];
        let mut run = 0;
        for _ in 0..self.calls {
            if rng.below(1_000) == 0 {
                run = rng.below(4);
            }
            let place = rng.below(self.targets.len().max(1) as u64);
            let target = self.targets.get(place as usize).copied().unwrap_or(1);
            let hurdle = 500 + rng.below(20_000);
            let call = match (rng.below(600), run) {
                (0, _) => Call::Rate(target, draw_confidence(&mut rng)),
                (1, _) => Call::Pairs(target),
                (2..200, 0 | 3) | (200..400, 1) => Call::PopFront,
                (2..200, 1 | 2) | (200..400, 0) => Call::PopBack,
                (_, 0 | 2) => Call::PushBack(hurdle),
                _ => Call::PushFront(hurdle),
            };
            let short = if rng.below(1_000) == 0 {
                draw_short(&mut rng)
            } else {
                0
            };
            steps.push(Step { call, short });
        }
        (opening, steps)
    }
}

/// A capacity of some thousand, and as many hurdles or a few fewer.
pub fn draw_story(rng: &mut Rng) -> Story {
    let capacity = 2_100 + rng.below(1_500);
    let targets = (0..1 + rng.below(3))
        .map(|_| rng.pick(&BOX_TARGETS))
        .collect();
    Story {
        targets,
        capacity,
        stretch: Stretch {
            kind: rng.below(KINDS),
            seed: rng.of_bits(32),
            length: capacity - rng.below(60),
        },
        calls: 1_000 + rng.below(2_000),
    }
}

/// The box's windows, and the largest.
pub fn box_stories() -> Vec<Story> {
    let story = |seed, targets: &[u32], capacity, length| Story {
        targets: targets.to_vec(),
        capacity,
        stretch: Stretch {
            kind: seed % KINDS,
            seed,
            length,
        },
        calls: 6_000,
    };
    let mut stories: Vec<Story> = (0..KINDS)
        .map(|seed| story(seed, &BOX_TARGETS, BOX_CAPACITY, BOX_HURDLES))
        .collect();
    stories.push(story(CALM, &BOX_TARGETS, BOX_HURDLES, BOX_HURDLES));
    stories.push(story(SPIKING, &[6, 1008], 65_536, 65_536));
    stories
}

/// Pairs that are put into the windows of target 1 from outside, with `level` as what holds now.
#[derive(Clone)]
pub struct Scan {
    pub kind: u64,
    pub seed: u64,
    pub count: u64,
    pub level: u64,
    pub confidence: f64,
}

impl Words for Scan {
    fn write(&self, out: &mut Vec<Word>) {
        (self.kind, self.seed, self.count).write(out);
        (self.level, self.confidence).write(out);
    }
}

impl Input for Scan {
    fn smaller(&self) -> Vec<Scan> {
        let numbers = (self.seed, self.count, self.level);
        let parts = (numbers, self.confidence).smaller();
        let scan = |((seed, count, level), confidence)| Scan {
            kind: self.kind,
            seed,
            count,
            level,
            confidence,
        };
        parts.into_iter().map(scan).collect()
    }
}

/// Kinds of pairs: next to the band's ends, at few distances, any floats, two levels with about 200 in
/// band.
pub const SCANS: u64 = 4;

impl Scan {
    /// The pairs, where the logarithm of the level is `now` and that of 1.25 `band`.
    pub fn pairs(&self, now: f64, band: f64) -> Vec<(f64, u64)> {
        let mut rng = Rng::new(self.seed, "pairs");
        let in_band = 190 + self.seed % 21;
        let before = |rng: &mut Rng, place: u64| match self.kind {
            0 => {
                let end = if rng.below(2) == 0 {
                    now - band
                } else {
                    now + band
                };
                let steps = rng.below(5) as i64 - 2;
                crate::words::of_rank(crate::words::rank(end) + steps)
            }
            1 => now + rng.pick(&[-1.0, -0.75, 0.5, 0.75, 1.0, 1.0]),
            2 => any_float(rng),
            _ if place * in_band / self.count != (place + 1) * in_band / self.count => {
                now + 0.1 * (rng.fraction() - 0.5)
            }
            _ => now + rng.pick(&[0.5, -0.5, 0.625]),
        };
        let pair = |place| (before(&mut rng, place), rng.of_bits(20));
        (0..self.count).map(pair).collect()
    }

    pub fn hurdles(&self) -> Vec<u64> {
        vec![self.level; length_for(1, self.count) as usize]
    }
}

/// Of NaNs those of one pattern, of either sign: of several the Rust tells one from another.
pub fn any_float(rng: &mut Rng) -> f64 {
    let x = match rng.below(4) {
        0 => rng.pick(&crate::values::special_floats()),
        1 => rng.pick(&[f64::NAN, -f64::NAN]),
        2 => rng.any_f64(),
        _ => rng.f64_of_exponent(-3, 6),
    };
    if x.is_nan() { f64::NAN.copysign(x) } else { x }
}

pub fn draw_scan(rng: &mut Rng) -> Scan {
    Scan {
        kind: rng.below(SCANS),
        seed: rng.of_bits(16),
        count: 2_000 + rng.below(100),
        level: draw_hurdle(rng),
        confidence: draw_confidence(rng),
    }
}

/// A list of a length, and at times one whose lower neighbour may be 0.
pub fn draw_list(rng: &mut Rng, length: u64) -> Vec<u64> {
    let kind = rng.below(7);
    let draw = |_| match kind {
        0 => rng.below(4),
        1 => rng.below(1_000_000),
        2 => rng.of_any_length(),
        3 => rng.pick(&[0, 1, 1 << 63, u64::MAX - 1, u64::MAX]),
        4 => u64::MAX - rng.below(length.max(1)),
        5 => rng.below(2) * rng.below(5_000),
        _ => 1_000,
    };
    let mut list: Vec<u64> = (0..length).map(draw).collect();
    match rng.below(4) {
        0 => list.sort_unstable(),
        1 => list.sort_unstable_by(|a, b| b.cmp(a)),
        _ => {}
    }
    list
}
