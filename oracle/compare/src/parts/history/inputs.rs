//! Blocks, heights and calls to compare histories on.

use super::rattle;
use super::sides::{Block, Call, Case, Opening, Step};
use crate::parts::windows::inputs::{BOX_TARGETS, KINDS, Stretch, draw_hurdle, draw_target};
use crate::rng::Rng;
use crate::words::{Input, Word, Words};

/// What a run of calls draws its heights and blocks from.
struct Walk {
    /// About the oldest and the newest held height.
    first: u32,
    tip: u32,
    /// The kind of byte counts, and one block in how many has no rate (1,000: none).
    sizes: u64,
    missing: u64,
    /// Whether every block has a hash.
    hashes: bool,
}

impl Walk {
    fn draw(rng: &mut Rng) -> Walk {
        let first = match rng.below(4) {
            0 => rng.below(4) as u32,
            1 => u32::MAX - rng.below(60) as u32,
            _ => 800_000 + rng.below(1_000) as u32,
        };
        Walk {
            first,
            tip: first,
            sizes: rng.below(5),
            missing: rng.pick(&[1, 2, 4, 4, 16, 1_000]),
            hashes: rng.below(2) == 0,
        }
    }

    fn block(&self, rng: &mut Rng) -> Block {
        let rate = (rng.below(self.missing) > 0 || self.missing == 1_000).then(|| draw_hurdle(rng));
        let bytes = match self.sizes {
            0 => 10,
            1 => rng.below(200),
            2 => rng.of_any_length(),
            3 => rng.pick(&[0, 1, 1 << 63, u64::MAX - 1, u64::MAX]),
            _ => rng.below(3),
        };
        (rate, bytes)
    }

    fn hash(&self, rng: &mut Rng) -> Option<u64> {
        (self.hashes || rng.below(4) > 0).then(|| rng.word())
    }

    /// A connect at a height, which is then the newest.
    fn connect(&mut self, rng: &mut Rng, height: u32) -> Call {
        self.tip = height;
        self.first = self.first.min(height);
        Call::Insert(height, self.block(rng), self.hash(rng))
    }

    fn preload(&mut self, rng: &mut Rng, height: u32) -> Call {
        self.tip = self.tip.max(height);
        self.first = self.first.min(height);
        Call::InsertIfAbsent(height, self.block(rng), self.hash(rng))
    }

    /// A height about the held ones, at times any.
    fn height(&self, rng: &mut Rng) -> u32 {
        let span = u64::from(self.tip - self.first) + 3;
        match rng.below(16) {
            0 => rng.pick(&[0, 1, u32::MAX - 1, u32::MAX]),
            1 => rng.of_bits(32) as u32,
            _ => self
                .first
                .saturating_add(rng.below(span) as u32)
                .saturating_sub(1),
        }
    }

    /// Connects and reorgs; preloads below, above and between; cuts and reads.
    fn call(&mut self, rng: &mut Rng) -> Call {
        match rng.below(32) {
            0..11 => self.connect(rng, self.tip.saturating_add(1)),
            11 => {
                let gap = 2 + rng.below(3) as u32;
                self.connect(rng, self.tip.saturating_add(gap))
            }
            12..14 => {
                let back = rng.below(5) as u32;
                self.connect(rng, self.tip.saturating_sub(back).max(self.first))
            }
            14..17 => {
                let below = 1 + rng.below(2) as u32;
                self.preload(rng, self.first.saturating_sub(below))
            }
            17..19 => self.preload(rng, self.tip.saturating_add(1)),
            19..22 => {
                let height = self.height(rng);
                self.preload(rng, height)
            }
            22 => {
                let height = self.height(rng);
                self.connect(rng, height)
            }
            23..25 => {
                let back = rng.below(4) as u32;
                let height = self.tip.saturating_sub(back).max(self.first);
                self.tip = height;
                Call::TruncateAbove(height)
            }
            25 => Call::TruncateAbove(self.height(rng)),
            26 => Call::Get(self.height(rng)),
            27 => Call::Entries,
            28 => Call::RecentHashes,
            _ => Call::Rates,
        }
    }
}

/// One call in eight is lent a list that is too short, and four of the others exact lists.
fn draw_short(rng: &mut Rng) -> u8 {
    match rng.below(8) {
        0 => 1 + rng.below(u64::from(rattle::EXACT) - 1) as u8,
        1..5 => rattle::EXACT,
        _ => 0,
    }
}

/// 0, about as much as some blocks have, or any.
pub fn draw_budget(rng: &mut Rng, blocks: u64) -> u64 {
    match rng.below(8) {
        0 => 0,
        1 | 2 => u64::MAX,
        3 => rng.of_any_length(),
        4 => rng.below(2 * blocks + 1),
        _ => rng.below(100 * blocks + 1),
    }
}

fn draw_opening(rng: &mut Rng) -> Opening {
    let count = match rng.below(8) {
        0 => rng.pick(&[0, 15, 16, 17]),
        _ => 1 + rng.below(4),
    };
    let capacity = match rng.below(16) {
        0..2 => rng.below(3),
        2 => rng.pick(&[65_537, 1 << 32, u64::MAX / 16, u64::MAX]),
        _ => 3 + rng.below(30),
    };
    // A capacity that is refused takes no more memory than one target's.
    let count = if capacity > 65_536 {
        count.min(1)
    } else {
        count
    };
    Opening {
        budget: draw_budget(rng, capacity.min(40)),
        targets: (0..count).map(|_| draw_target(rng)).collect(),
        capacity,
        short: draw_short(rng) * u8::from(rng.below(4) == 0),
    }
}

pub fn draw_steps(rng: &mut Rng, count: u64) -> Vec<Step> {
    let mut walk = Walk::draw(rng);
    let step = |_| Step {
        call: walk.call(rng),
        short: draw_short(rng),
    };
    (0..count).map(step).collect()
}

/// Up to 79 calls.
pub fn draw_calls(rng: &mut Rng) -> Case {
    let opening = draw_opening(rng);
    let count = rng.below(80);
    (opening, draw_steps(rng, count))
}

/// Up to 398 calls on about as many places as hashes are kept, most of them filled first.
pub fn draw_long_calls(rng: &mut Rng) -> Case {
    let capacity = 143 + rng.below(4);
    let opening = Opening {
        budget: match rng.below(3) {
            0 => draw_budget(rng, capacity),
            _ => u64::MAX,
        },
        targets: (0..rng.below(3)).map(|_| draw_target(rng)).collect(),
        capacity,
        short: 0,
    };
    let mut walk = Walk::draw(rng);
    walk.first = walk.first.min(u32::MAX - 1_000);
    walk.tip = walk.first;
    let fill = 130 + rng.below(20);
    let mut steps: Vec<Step> = (0..fill)
        .map(|_| walk.connect(rng, walk.tip + 1).into())
        .collect();
    steps.extend((0..rng.below(250)).map(|_| Step {
        call: walk.call(rng),
        short: draw_short(rng),
    }));
    (opening, steps)
}

/// A history that is filled with blocks of these rates, and then called, with calls drawn from the rates'
/// seed.
#[derive(Clone)]
pub struct Story {
    pub targets: Vec<u32>,
    pub capacity: u64,
    pub budget: u64,
    pub stretch: Stretch,
    pub calls: u64,
}

impl Words for Story {
    fn write(&self, out: &mut Vec<Word>) {
        self.targets.write(out);
        (self.capacity, self.budget, self.calls).write(out);
        self.stretch.write(out);
    }
}

/// Fewer calls, blocks or targets.
impl Input for Story {
    fn smaller(&self) -> Vec<Story> {
        let parts = ((self.calls, self.stretch), self.targets.clone()).smaller();
        let story = |((calls, stretch), targets)| Story {
            targets,
            calls,
            stretch,
            capacity: self.capacity,
            budget: self.budget,
        };
        parts.into_iter().map(story).collect()
    }
}

/// The byte count of a story's blocks.
pub const STORY_BYTES: u64 = 100;

impl Story {
    /// Every second height from 1,000 on: connected from below, preloaded from above, or preloaded from
    /// the middle to both ends. Then calls as everywhere, without long cuts.
    pub fn case(&self) -> Case {
        let mut rng = Rng::new(self.stretch.seed, "history");
        let opening = Opening {
            budget: self.budget,
            targets: self.targets.clone(),
            capacity: self.capacity,
            short: 0,
        };
        let rates = self.stretch.hurdles();
        let count = rates.len();
        let mut walk = Walk {
            first: 1_000,
            tip: 1_000 + 2 * count as u32,
            sizes: 0,
            missing: 1_000,
            hashes: true,
        };
        let order = rng.below(3);
        let block = |place: usize| {
            let place = match order {
                0 => place,
                1 => count - 1 - place,
                _ if place.is_multiple_of(2) => (count - 1) / 2 - place / 2,
                _ => (count - 1) / 2 + 1 + place / 2,
            };
            let height = 1_000 + 2 * place as u32;
            let block = (Some(rates[place]), STORY_BYTES);
            match order {
                0 => Call::Insert(height, block, Some(rates[place])),
                _ => Call::InsertIfAbsent(height, block, Some(rates[place])),
            }
        };
        let mut steps: Vec<Step> = (0..count).map(|place| block(place).into()).collect();
        steps.extend((0..self.calls).map(|_| walk.long_step(&mut rng)));
        (opening, steps)
    }
}

impl Walk {
    /// A call that leaves most of the blocks.
    fn long_step(&mut self, rng: &mut Rng) -> Step {
        let call = match self.call(rng) {
            Call::Insert(height, ..) if height.saturating_add(40) < self.tip => Call::Rates,
            Call::TruncateAbove(height) if height.saturating_add(40) < self.tip => Call::Rates,
            Call::Insert(height, (_, _), hash) => {
                let rate = (rng.below(32) > 0).then(|| 500 + rng.below(20_000));
                Call::Insert(height, (rate, STORY_BYTES), hash)
            }
            Call::InsertIfAbsent(height, (_, _), hash) => {
                let rate = (rng.below(32) > 0).then(|| 500 + rng.below(20_000));
                Call::InsertIfAbsent(height, (rate, STORY_BYTES), hash)
            }
            call => call,
        };
        let short = match rng.below(50) {
            0 => draw_short(rng),
            _ => 0,
        };
        Step { call, short }
    }
}

/// A capacity of some two thousand, and as many blocks or a few fewer.
pub fn draw_story(rng: &mut Rng) -> Story {
    let capacity = 2_100 + rng.below(2) * rng.below(300);
    let length = capacity - rng.below(95);
    let targets = (0..1 + rng.below(3)).map(|_| match rng.below(4) {
        0 => rng.pick(&BOX_TARGETS),
        _ => rng.below(8) as u32,
    });
    let targets = targets.collect();
    let budget = match rng.below(3) {
        0 => STORY_BYTES * (length + rng.below(20)) - 10 * STORY_BYTES,
        _ => u64::MAX,
    };
    Story {
        targets,
        capacity,
        budget,
        stretch: Stretch {
            kind: rng.below(KINDS),
            seed: rng.of_bits(32),
            length,
        },
        calls: 100 + rng.below(200),
    }
}
