//! A day at the box: 144 blocks through meter, history, loop and lookup.
//!
//! The mempool and the blocks are made up by a fixed generator of whole numbers, so that the text is the same on every
//! machine. Rates are sat/kvB; `-` is no rate.

use juleyomu::{Block, Board, DepthInputs, History, Meter, Refusal, capacity, statistics};
use std::fmt::Display;
use std::io::{self, Write};

const TARGETS: [u32; 11] = [1, 2, 3, 4, 5, 6, 12, 24, 144, 504, 1008];
/// Targets between and beyond the depths.
const BETWEEN: [u32; 5] = [8, 72, 300, 720, 2016];
/// Blocks of the day, and how many go by from one line to the next.
const DAY: u32 = 144;
const EVERY: u32 = 12;
/// The day's first height, and the blocks before it.
const FIRST: u32 = 900_000;
const BEFORE: u32 = 3_130;
/// What the history may hold: about 3,200 blocks, with room for more while one is connected.
const BUDGET: u64 = 112_000_000;
const CAPACITY: usize = 3_600;
/// After this block of the day the newest two are replaced.
const REORG: u32 = 100;
const SECOND: u64 = 1_000_000_000;
const BLOCK_WU: u64 = 4_000_000;

/// A linear generator of whole numbers.
struct Draw(u64);

impl Draw {
    /// From `low` to `high`, both included.
    fn within(&mut self, low: u64, high: u64) -> u64 {
        let next = self.0.wrapping_mul(6_364_136_223_846_793_005);
        self.0 = next.wrapping_add(1_442_695_040_888_963_407);
        low + (self.0 >> 33) % (high - low + 1)
    }

    /// A hash that no other block has.
    fn hash(&mut self, height: u32) -> [u8; 32] {
        let mut hash = [0; 32];
        hash[..4].copy_from_slice(&height.to_be_bytes());
        hash[4..12].copy_from_slice(&self.within(0, u64::from(u32::MAX)).to_be_bytes());
        hash
    }
}

/// Transactions that wait, each a rate and a weight.
struct Pool(Vec<(u64, u64)>);

impl Pool {
    fn weight(&self) -> u64 {
        self.0.iter().map(|(_, weight)| weight).sum()
    }

    /// The weight strictly above each candidate.
    fn stock(&self, candidates: &[u64]) -> Vec<u64> {
        let above = |candidate| {
            let dearer = self.0.iter().filter(move |(rate, _)| *rate > candidate);
            dearer.map(|(_, weight)| weight).sum()
        };
        candidates.iter().map(|&rate| above(rate)).collect()
    }

    /// The rate at which the pool is `n` blocks deep; none where it is thinner.
    fn frontier(&self, n: u32) -> Option<u64> {
        let mut dearest = self.0.clone();
        dearest.sort_unstable_by(|a, b| b.cmp(a));
        let mut deep = 0;
        for (rate, weight) in dearest {
            deep += weight;
            if deep >= u64::from(n) * BLOCK_WU {
                return Some(rate);
            }
        }
        None
    }

    /// Takes a block's transactions, the dearest first. The block's rate is the least of its dearest nine tenths.
    fn mine(&mut self) -> Option<u64> {
        self.0.sort_unstable();
        let mut taken = Vec::new();
        let mut room = BLOCK_WU - 4_000;
        while let Some(&(rate, weight)) = self.0.last()
            && weight <= room
        {
            room -= weight;
            taken.push((rate, weight));
            self.0.pop();
        }
        let total: u64 = taken.iter().map(|(_, weight)| weight).sum();
        let mut seen = 0;
        let rated = taken.iter().rev().find(|(_, weight)| {
            seen += weight;
            seen * 10 >= total
        });
        rated.map(|&(rate, _)| rate)
    }
}

/// The box, and the node that it stands beside.
struct Desk {
    draw: Draw,
    now: u64,
    tip: u32,
    pool: Pool,
    meter: Meter,
    history: History,
    candidates: [u64; capacity::EDGES],
}

impl Desk {
    fn open() -> Result<Desk, Refusal> {
        Ok(Desk {
            draw: Draw(20_240_420),
            now: 0,
            tip: FIRST - 1,
            pool: Pool(Vec::new()),
            meter: Meter::new(0),
            history: History::open(BUDGET, &TARGETS, CAPACITY)?,
            candidates: capacity::bucket_edges(),
        })
    }

    /// The blocks before the day, newest first. One in a hundred has no rate.
    fn preload(&mut self) -> Result<(), Refusal> {
        let mut level = 2_000;
        for back in 1..=BEFORE {
            let height = FIRST - back;
            level = (level * self.draw.within(960, 1_042) / 1_000).clamp(800, 12_000);
            let rate = level * self.draw.within(80, 125) / 100;
            let block = Block {
                rate: (self.draw.within(1, 100) > 1).then_some(rate),
                bytes: self.draw.within(30_000, 40_000),
            };
            let hash = self.draw.hash(height);
            self.history.preload(height, block, Some(hash))?;
        }
        Ok(())
    }

    /// What a transaction pays about now, and how many WU/s come in: more from the 49th block to the 84th.
    fn demand(&self) -> (u64, u64) {
        match self.tip + 1 - FIRST {
            48..84 => (9_000, 9_400),
            84..108 => (4_000, 5_200),
            _ => (2_000, 5_900),
        }
    }

    /// Admissions for about ten minutes, then a block. One in forty is empty.
    fn pass(&mut self) -> Result<(), Refusal> {
        let end = self.now + self.draw.within(300, 900) * SECOND;
        let (level, flow) = self.demand();
        while self.now < end {
            let gap = self.draw.within(4, 12);
            self.now += gap * SECOND;
            let weight = gap * flow * self.draw.within(50, 150) / 100;
            let rate = level * self.draw.within(40, 260) / 100;
            self.meter.note_admit(weight, rate, self.now);
            self.pool.0.push((rate, weight));
        }
        let empty = self.draw.within(1, 40) == 1;
        let rate = if empty { None } else { self.pool.mine() };
        self.tip += 1;
        self.connect(rate)
    }

    /// A block at the tip.
    fn connect(&mut self, rate: Option<u64>) -> Result<(), Refusal> {
        let bytes = self.draw.within(30_000, 40_000);
        let hash = self.draw.hash(self.tip);
        self.history
            .connect(self.tip, Block { rate, bytes }, Some(hash))
    }

    /// The newest two blocks give way to others, a tenth dearer.
    fn reorganize(&mut self) -> Result<(), Refusal> {
        let gone = [self.tip - 1, self.tip].map(|height| self.history.get(height));
        self.tip -= 2;
        self.history.truncate_above(self.tip);
        for block in gone {
            self.tip += 1;
            let rate = block.and_then(|block| block.rate);
            self.connect(rate.map(|rate| rate * 11 / 10))?;
        }
        Ok(())
    }

    /// The middle of the last six blocks' rates.
    fn confirm(&self) -> Option<u64> {
        let last = (self.tip - 5..=self.tip).filter_map(|height| self.history.get(height));
        let rates: Vec<u64> = last.filter_map(|block| block.rate).collect();
        statistics::percentile(&rates, 50)
    }

    fn quotes(&mut self) -> Result<Quotes, Refusal> {
        let inflow = self.meter.admit_rates_wu_s(self.now);
        let stock = self.pool.stock(&self.candidates);
        let fit = |&n| capacity::min_rate_for_capacity(&self.candidates, &stock, &inflow, n);
        let projected = TARGETS.iter().map(fit).collect::<Result<Vec<_>, _>>()?;
        let frontier = TARGETS.map(|n| self.pool.frontier(n));
        let history = self.history.rates();
        let share = self.meter.fullness(self.now);
        let board = Board::publish(&DepthInputs {
            depths: &TARGETS,
            projected: &projected,
            frontier: &frontier,
            history: &history,
            confirm: self.confirm(),
            share,
        })?;
        Ok(Quotes {
            projected,
            frontier,
            history,
            share,
            board,
        })
    }
}

/// A board with what it was made from.
struct Quotes {
    projected: Vec<Option<u64>>,
    frontier: [Option<u64>; 11],
    history: Vec<Option<u64>>,
    share: f64,
    board: Board,
}

/// A rate, or `-`.
fn shown(rate: Option<u64>) -> String {
    rate.map_or_else(|| "-".to_string(), |rate| rate.to_string())
}

fn row(out: &mut impl Write, cells: &[impl Display]) -> io::Result<()> {
    for (place, cell) in cells.iter().enumerate() {
        let gap = if place == 0 { "" } else { "  " };
        write!(out, "{gap}{cell:>9}")?;
    }
    writeln!(out)
}

const HEADER: [&str; 9] = [
    "height", "minutes", "pool kWU", "held", "share %", "1 block", "6", "144", "1008",
];

/// One line about now. The share is cut to whole percents.
fn line(out: &mut impl Write, desk: &mut Desk) -> Result<(), Box<dyn std::error::Error>> {
    let quotes = desk.quotes()?;
    let percent = (quotes.share * 100.0) as u64;
    let mut cells = vec![
        desk.tip.to_string(),
        (desk.now / (60 * SECOND)).to_string(),
        (desk.pool.weight() / 1_000).to_string(),
        desk.history.len().to_string(),
        percent.to_string(),
    ];
    cells.extend([1, 6, 144, 1008].map(|target| shown(quotes.board.quote(target))));
    Ok(row(out, &cells)?)
}

/// The board: what each target is made from, and its quote.
fn board(out: &mut impl Write, quotes: &Quotes) -> io::Result<()> {
    row(
        out,
        &["target", "projected", "frontier", "history", "quote"],
    )?;
    for (place, &target) in TARGETS.iter().enumerate() {
        let parts = [
            quotes.projected[place],
            quotes.frontier[place],
            quotes.history[place],
            quotes.board.quote(target),
        ];
        let mut cells = vec![target.to_string()];
        cells.extend(parts.map(shown));
        row(out, &cells)?;
    }
    writeln!(out, "\nbetween and beyond the depths\n")?;
    row(out, &["target", "quote"])?;
    for target in BETWEEN {
        row(
            out,
            &[target.to_string(), shown(quotes.board.quote(target))],
        )?;
    }
    Ok(())
}

fn day(out: &mut impl Write) -> Result<(), Box<dyn std::error::Error>> {
    let mut desk = Desk::open()?;
    writeln!(out, "one day of blocks, rates in sat/kvB\n")?;
    row(out, &HEADER)?;
    line(out, &mut desk)?;
    desk.preload()?;
    line(out, &mut desk)?;
    for block in 1..=DAY {
        desk.pass()?;
        if block == REORG {
            desk.reorganize()?;
            writeln!(out, "{:>9}  the newest two blocks were replaced", desk.tip)?;
        }
        if block % EVERY == 0 {
            line(out, &mut desk)?;
        }
    }
    writeln!(out, "\nquotes at the end of the day\n")?;
    board(out, &desk.quotes()?)?;
    let history = &desk.history;
    writeln!(
        out,
        "\nheld: {} blocks of {} bytes, {} hashes, in {} bytes of memory",
        history.len(),
        history.byte_total(),
        history.recent_hashes().len(),
        history.lent_bytes().total()
    )?;
    Ok(())
}

fn main() -> Result<(), Box<dyn std::error::Error>> {
    let mut out = io::stdout().lock();
    day(&mut out)?;
    Ok(out.flush()?)
}
