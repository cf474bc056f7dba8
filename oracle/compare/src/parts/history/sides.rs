//! Calls on held blocks, and the history of either side.

use super::rattle::{self, Asked, BlockHash, Lists, MarkedBlock, Memory, RECENT_HASHES};
use crate::words::{Input, Word, Words, without_runs};
use std::hint::black_box;

/// A budget, targets, capacity, and the list that is lent one place too short, 0 for none; none too is
/// `EXACT`.
#[derive(Clone)]
pub struct Opening {
    pub budget: u64,
    pub targets: Vec<u32>,
    pub capacity: u64,
    pub short: u8,
}

impl Words for Opening {
    fn write(&self, out: &mut Vec<Word>) {
        self.budget.write(out);
        self.targets.write(out);
        (self.capacity, self.short).write(out);
    }
}

impl Input for Opening {
    fn smaller(&self) -> Vec<Opening> {
        let sizes = (self.budget, self.capacity, self.short);
        let parts = (self.targets.clone(), sizes).smaller().into_iter();
        let opening = |(targets, (budget, capacity, short))| Opening {
            budget,
            targets,
            capacity,
            short,
        };
        parts.map(opening).collect()
    }
}

/// A rate that is there or missing, and a byte count.
pub type Block = (Option<u64>, u64);

/// The hash of a word, or none.
pub type Hash = Option<u64>;

/// 32 bytes worked out from a word.
pub fn hash_bytes(word: u64) -> [u8; 32] {
    let mut out = [0; 32];
    for (place, byte) in out.iter_mut().enumerate() {
        *byte = (word >> (8 * (place % 8))) as u8 ^ place as u8;
    }
    out
}

#[derive(Clone)]
pub enum Call {
    Insert(u32, Block, Hash),
    InsertIfAbsent(u32, Block, Hash),
    TruncateAbove(u32),
    Get(u32),
    Entries,
    RecentHashes,
    Rates,
}

impl Call {
    /// Whether the call changes no history.
    pub fn reads(&self) -> bool {
        matches!(self, Call::Get(_) | Call::Entries | Call::RecentHashes)
    }
}

impl Words for Call {
    fn write(&self, out: &mut Vec<Word>) {
        match self {
            Call::Insert(height, block, hash) => (0_u64, (*height, *block, *hash)).write(out),
            Call::InsertIfAbsent(height, block, hash) => {
                (1_u64, (*height, *block, *hash)).write(out);
            }
            Call::TruncateAbove(height) => (2_u64, *height).write(out),
            Call::Get(height) => (3_u64, *height).write(out),
            Call::Entries => 4_u64.write(out),
            Call::RecentHashes => 5_u64.write(out),
            Call::Rates => 6_u64.write(out),
        }
    }
}

/// A few smaller numbers: a sequence of hundreds of calls is tried with each.
fn few(n: u64) -> impl Iterator<Item = u64> {
    [0, 1, n / 2, n.saturating_sub(1)]
        .into_iter()
        .filter(move |less| *less < n)
}

impl Input for Call {
    fn smaller(&self) -> Vec<Call> {
        let heights = |height: u32| few(height.into()).map(|height| height as u32);
        let parts = |height: u32, (rate, bytes): Block, hash: Hash| {
            let lower = heights(height).map(move |height| (height, (rate, bytes), hash));
            let rates = std::iter::once(None).chain(few(rate.unwrap_or(0)).map(Some));
            let rates = rates.filter(move |less| rate.is_some() && *less != rate);
            let rates = rates.map(move |rate| (height, (rate, bytes), hash));
            let sizes = few(bytes).map(move |bytes| (height, (rate, bytes), hash));
            let hashes = [None, Some(0)].into_iter().filter(move |less| *less < hash);
            let hashes = hashes.map(move |hash| (height, (rate, bytes), hash));
            lower.chain(rates).chain(sizes).chain(hashes)
        };
        match *self {
            Call::Insert(height, block, hash) => parts(height, block, hash)
                .map(|(height, block, hash)| Call::Insert(height, block, hash))
                .collect(),
            Call::InsertIfAbsent(height, block, hash) => parts(height, block, hash)
                .map(|(height, block, hash)| Call::InsertIfAbsent(height, block, hash))
                .chain([Call::Insert(height, block, hash)])
                .collect(),
            Call::TruncateAbove(height) => heights(height).map(Call::TruncateAbove).collect(),
            Call::Get(height) => heights(height).map(Call::Get).collect(),
            Call::Entries | Call::RecentHashes | Call::Rates => Vec::new(),
        }
    }
}

/// A call, and the list that it is lent one place too short, 0 for none; none too is `EXACT`.
#[derive(Clone)]
pub struct Step {
    pub call: Call,
    pub short: u8,
}

impl From<Call> for Step {
    fn from(call: Call) -> Step {
        Step { call, short: 0 }
    }
}

impl Words for Step {
    fn write(&self, out: &mut Vec<Word>) {
        self.call.write(out);
        self.short.write(out);
    }
}

impl Input for Step {
    fn smaller(&self) -> Vec<Step> {
        let calls = self.call.smaller().into_iter();
        let short = self.short;
        let calls = calls.map(|call| Step { call, short });
        let call = self.call.clone();
        let exact = (short != 0).then_some(Step { call, short: 0 });
        calls.chain(exact).collect()
    }
}

/// Document 01's refusals, which the Rust does not have. Memory is lent for `tracked` targets.
struct Rules {
    tracked: usize,
    capacity: u64,
}

/// What of a history the refusals depend on.
struct Held {
    /// Below the call's height, and in all; whether that height is among them.
    below: usize,
    count: usize,
    is_held: bool,
    hashes: usize,
}

impl Rules {
    const MOST_TARGETS: usize = 16;
    const MOST_PLACES: u64 = 65_536;

    /// 3, then 5.
    fn opening(opening: &Opening) -> u8 {
        let rules = Rules {
            tracked: opening.targets.len(),
            capacity: opening.capacity,
        };
        if rules.tracked > Self::MOST_TARGETS {
            3
        } else if rules.capacity > Self::MOST_PLACES
            || rules.lacks_rows(opening.short)
            || rules.lacks_hashes(opening.short)
            || rules.lacks_windows(opening.short)
        {
            5
        } else {
            0
        }
    }

    /// Whether a list that is lent for the rows, the hashes or the windows is too short: none is where
    /// nothing is asked for.
    fn lacks_rows(&self, short: u8) -> bool {
        matches!(short, rattle::HEIGHTS..=rattle::SIZES) && self.capacity > 0
    }

    fn lacks_hashes(&self, short: u8) -> bool {
        matches!(short, rattle::HASH_HEIGHTS | rattle::HASH_BYTES)
    }

    fn lacks_windows(&self, short: u8) -> bool {
        match short {
            rattle::HURDLES => self.capacity > 0,
            rattle::BEFORES | rattle::AHEADS => self.capacity > 0 && self.tracked > 0,
            _ => false,
        }
    }

    /// 1, then 5, then 4.
    fn step(&self, held: &Held, Step { call, short }: &Step) -> u8 {
        let unequal = matches!(*short, rattle::OUT_NUMBERS | rattle::OUT_MARKS);
        if unequal && matches!(call, Call::Entries | Call::Rates) {
            1
        } else if self.lacks(held, call, *short) {
            5
        } else if self.is_full(held, call) {
            4
        } else {
            0
        }
    }

    /// Whether a list that the call is lent is too short.
    fn lacks(&self, held: &Held, call: &Call, short: u8) -> bool {
        let rows = self.lacks_rows(short);
        let hashes = self.lacks_hashes(short);
        let windows = self.lacks_windows(short);
        match call {
            Call::Insert(..) | Call::InsertIfAbsent(..) => rows || hashes || windows,
            Call::TruncateAbove(_) => rows || hashes,
            Call::Get(_) => rows,
            Call::Entries => {
                let out = [rattle::OUT_HEIGHTS, rattle::OUT_SIZES, rattle::OUT_RATES];
                rows || out.contains(&short) && held.count > 0
            }
            Call::RecentHashes => {
                let out = [rattle::OUT_HEIGHTS, rattle::OUT_BYTES];
                hashes || out.contains(&short) && held.hashes > 0
            }
            Call::Rates => {
                let scratch = short == rattle::SCRATCH && self.capacity > 0;
                let out = short == rattle::OUT_RATES && self.tracked > 0;
                rows || windows || scratch || out
            }
        }
    }

    fn is_full(&self, held: &Held, call: &Call) -> bool {
        match call {
            Call::Insert(..) => held.below as u64 == self.capacity,
            Call::InsertIfAbsent(..) => !held.is_held && held.count as u64 == self.capacity,
            _ => false,
        }
    }
}

/// The rate of a target, or none.
pub type Rate = Option<u64>;

/// A history: everything but the pairs.
#[derive(PartialEq, Debug)]
pub struct State {
    pub blocks: Vec<(u32, Block)>,
    pub total: u64,
    pub hashes: Vec<(u32, [u8; 32])>,
    pub hurdles: Vec<u64>,
    pub stale: bool,
    /// Those that are kept, in tracked order.
    pub rates: Option<Vec<Rate>>,
}

/// For each target the pairs, oldest first.
pub type Pairs = Vec<Vec<(f64, u64)>>;

pub fn hash_words(bytes: &[u8; 32]) -> [u64; 4] {
    let word = |place: usize| bytes[8 * place..8 * place + 8].try_into().expect("8 bytes");
    std::array::from_fn(|place| u64::from_le_bytes(word(place)))
}

impl Words for State {
    fn write(&self, out: &mut Vec<Word>) {
        self.blocks.write(out);
        self.total.write(out);
        self.hashes.len().write(out);
        for (height, bytes) in &self.hashes {
            height.write(out);
            out.extend(hash_words(bytes).map(Word::Int));
        }
        self.hurdles.write(out);
        self.stale.write(out);
        self.rates.write(out);
    }
}

/// The refusal, the answer's numbers, and whether what a call must not change is as it was. A list that
/// was written to adds a word, which no answer of the Rust has.
#[derive(PartialEq, Debug)]
pub struct Reply {
    pub refusal: u8,
    pub answer: Vec<u64>,
    pub kept: bool,
}

impl Reply {
    pub fn refused(refusal: u8) -> Reply {
        Reply {
            refusal,
            answer: Vec::new(),
            kept: true,
        }
    }

    pub fn of(answer: Vec<u64>) -> Reply {
        Reply {
            refusal: 0,
            answer,
            kept: true,
        }
    }
}

impl Words for Reply {
    fn write(&self, out: &mut Vec<Word>) {
        self.refusal.write(out);
        self.answer.write(out);
        if !self.kept {
            out.push(Word::Bool(false));
        }
    }
}

/// A row of an answer: the height, the mark and the number, 0 and 0 where missing, and the bytes.
fn row(height: u32, (rate, bytes): Block) -> [u64; 4] {
    let mark = u64::from(rate.is_some());
    [height.into(), mark, rate.unwrap_or(0), bytes]
}

/// A history of either side.
pub trait Side: Sized {
    /// The history, and what its opening was answered with.
    fn open(opening: &Opening) -> (Self, Reply);
    fn step(&mut self, step: &Step) -> Reply;
    fn state(&self) -> State;
    fn pairs(&self) -> Pairs;
}

/// The port's history, with the memory that each call is lent.
pub struct Port {
    pub state: rattle::State,
    pub memory: Memory,
}

pub fn marked((rate, bytes): Block) -> MarkedBlock {
    // A missing number is not read.
    MarkedBlock {
        mark: u8::from(rate.is_some()),
        rate: rate.unwrap_or(77),
        bytes,
    }
}

pub fn block_hash(hash: Hash) -> BlockHash {
    BlockHash {
        there: hash.is_some(),
        bytes: hash_bytes(hash.unwrap_or(0)),
    }
}

/// How long the lists of a call must be.
pub fn asked(state: &rattle::State, call: &Call) -> Asked {
    let answer = match call {
        Call::Entries => state.count,
        Call::RecentHashes => state.hashes,
        Call::Rates => state.analog.tracked,
        _ => 0,
    };
    Asked {
        capacity: state.analog.capacity,
        tracked: state.analog.tracked,
        answer,
    }
}

impl Port {
    pub fn called(&mut self, Step { call, short }: &Step) -> Reply {
        let (state, asked) = (self.state, asked(&self.state, call));
        let lent = &mut self.memory.lend(*short, asked);
        let update = match *call {
            Call::Insert(height, block, hash) => {
                rattle::insert(state, height, marked(block), block_hash(hash), lent)
            }
            Call::InsertIfAbsent(height, block, hash) => {
                rattle::insert_if_absent(state, height, marked(block), block_hash(hash), lent)
            }
            Call::TruncateAbove(height) => rattle::truncate_above(state, height, lent),
            Call::Rates => rattle::rates(state, lent),
            Call::Get(height) => return got(rattle::get(state, height, lent)),
            Call::Entries => return entries(state, lent),
            Call::RecentHashes => return recent_hashes(state, lent),
        };
        self.state = update.state;
        let mut reply = Reply::refused(update.refusal);
        if matches!(call, Call::Rates) && update.refusal == 0 {
            let numbers = lent.out_marks.iter().zip(lent.out_numbers.iter());
            let numbers = numbers.take(asked.answer);
            reply.answer = numbers.flat_map(|(m, n)| [u64::from(*m), *n]).collect();
        }
        reply
    }

    /// What the call may have changed.
    fn changes(&self, call: &Call, reply: &Reply, before: &(rattle::State, Memory)) -> Changes {
        let (state, memory) = before;
        if reply.refusal != 0 {
            return Changes::default();
        }
        let answer = asked(&self.state, call).answer;
        let mut changes = Changes::default();
        match call {
            Call::Get(_) => {}
            Call::Entries => {
                (changes.out_heights, changes.out_sizes) = (answer, answer);
                changes.out_rates = answer;
            }
            Call::RecentHashes => {
                (changes.out_heights, changes.out_hashes) = (answer, answer);
            }
            Call::TruncateAbove(_) => changes.state = true,
            Call::InsertIfAbsent(height, ..) if holds(state, memory, *height) => {}
            Call::Insert(..) | Call::InsertIfAbsent(..) => {
                changes.state = true;
                (changes.rows, changes.windows) = (state.analog.capacity, true);
                changes.hashes = RECENT_HASHES;
            }
            Call::Rates => {
                changes.out_rates = answer;
                // Windows that are stale are rebuilt; a scan that found a rate leaves its scratch open.
                changes.state = !state.kept;
                changes.windows = !state.kept && state.analog_stale;
                let found = reply.answer.chunks(2).any(|rate| rate[0] == 1);
                changes.scratch = !state.kept && found;
            }
        }
        changes
    }

    /// Whether the call left what it must not change: everything where it is refused or only reads, but
    /// for the front of the answer's lists; else what lies past the places of the history.
    pub fn keeps(&self, call: &Call, reply: &Reply, before: &(rattle::State, Memory)) -> bool {
        let changes = self.changes(call, reply, before);
        let (state, memory) = before;
        let now = black_box(&self.memory);
        let analog = &state.analog;
        let (hurdles, pairs) = match changes.windows {
            true => (
                analog.capacity,
                analog.tracked.saturating_mul(analog.capacity),
            ),
            false => (0, 0),
        };
        let bits = |list: &[f64]| list.iter().map(|x| x.to_bits()).collect::<Vec<u64>>();
        let Changes {
            rows,
            hashes,
            out_heights,
            out_rates,
            out_sizes,
            out_hashes,
            ..
        } = changes;
        past(&now.heights, &memory.heights, rows)
            && past(&now.marks, &memory.marks, rows)
            && past(&now.rates, &memory.rates, rows)
            && past(&now.sizes, &memory.sizes, rows)
            && past(&now.hash_heights, &memory.hash_heights, hashes)
            && past(&now.hash_bytes, &memory.hash_bytes, 32 * hashes)
            && past(&now.hurdles, &memory.hurdles, hurdles)
            && past(&bits(&now.befores), &bits(&memory.befores), pairs)
            && past(&now.aheads, &memory.aheads, pairs)
            && (changes.scratch || now.scratch == memory.scratch)
            && past(&now.out_heights, &memory.out_heights, out_heights)
            && past(&now.out_marks, &memory.out_marks, out_rates)
            && past(&now.out_numbers, &memory.out_numbers, out_rates)
            && past(&now.out_sizes, &memory.out_sizes, out_sizes)
            && past(&now.out_bytes, &memory.out_bytes, 32 * out_hashes)
            && (changes.state || self.state == *state)
    }

    /// Of a refused call, a read, and any call on little memory a copy is kept to compare with.
    fn is_watched(&self, step: &Step) -> bool {
        const LITTLE: usize = 1 << 12;
        self.memory.aheads.len() < LITTLE
            || step.short != 0
            || step.call.reads()
            || matches!(step.call, Call::Rates)
            || self.state.count == self.state.analog.capacity
    }
}

/// How many places of each list may have changed, from the first on; and what else may have.
#[derive(Default)]
struct Changes {
    rows: usize,
    hashes: usize,
    out_heights: usize,
    out_rates: usize,
    out_sizes: usize,
    out_hashes: usize,
    windows: bool,
    scratch: bool,
    state: bool,
}

/// Whether a height is among the held ones.
fn holds(state: &rattle::State, memory: &Memory, height: u32) -> bool {
    let held = memory.heights.iter().skip(state.start).take(state.count);
    held.copied().any(|held| held == height)
}

/// Two lists are the same from a place on.
fn past<T: PartialEq>(now: &[T], before: &[T], place: usize) -> bool {
    let place = place.min(now.len());
    now.len() == before.len() && now[place..] == before[place..]
}

fn got(found: rattle::BlockFields) -> Reply {
    let rattle::BlockFields {
        refusal,
        held,
        block,
    } = found;
    let block = [u64::from(held), block.mark.into(), block.rate, block.bytes];
    match refusal {
        0 => Reply::of(block.to_vec()),
        // A refusal returns its number alone.
        _ if block != [0; 4] => Reply {
            refusal,
            answer: block.to_vec(),
            kept: true,
        },
        _ => Reply::refused(refusal),
    }
}

fn entries(state: rattle::State, lent: &mut Lists) -> Reply {
    let counted = rattle::entries(state, lent);
    let row = |place: usize| {
        [
            lent.out_heights[place].into(),
            lent.out_marks[place].into(),
            lent.out_numbers[place],
            lent.out_sizes[place],
        ]
    };
    Reply {
        refusal: counted.refusal,
        answer: (0..counted.count).flat_map(row).collect(),
        kept: true,
    }
}

fn recent_hashes(state: rattle::State, lent: &mut Lists) -> Reply {
    let counted = rattle::recent_hashes(state, lent);
    let hash = |place: usize| {
        let bytes = &lent.out_bytes[32 * place..32 * place + 32];
        let words = hash_words(bytes.try_into().expect("32 bytes"));
        [&[lent.out_heights[place].into()], &words[..]].concat()
    };
    Reply {
        refusal: counted.refusal,
        answer: (0..counted.count).flat_map(hash).collect(),
        kept: true,
    }
}

impl Side for Port {
    fn open(opening: &Opening) -> (Port, Reply) {
        // A larger capacity is refused, whatever is lent; and too many targets before it.
        let most = match opening.targets.len() > Rules::MOST_TARGETS {
            true => 8,
            false => Rules::MOST_PLACES + 1,
        };
        let places = opening.capacity.min(most) as usize;
        let mut memory = Memory::new(opening.targets.len(), places);
        let before = memory.clone();
        let mut targets = opening.targets.clone();
        let update = {
            let asked = Asked {
                capacity: places,
                tracked: targets.len(),
                answer: 0,
            };
            let lent = &mut memory.lend(opening.short, asked);
            rattle::new(
                opening.budget,
                &mut targets,
                opening.capacity as usize,
                lent,
            )
        };
        let mut port = Port {
            state: update.state,
            memory,
        };
        let mut reply = Reply::refused(update.refusal);
        reply.kept = black_box(&targets) == &opening.targets
            && port.keeps(&Call::Get(0), &reply, &(update.state, before));
        if reply.refusal != 0 {
            port.memory = Memory::new(0, 0);
        }
        (port, reply)
    }

    fn step(&mut self, step: &Step) -> Reply {
        let before = self
            .is_watched(step)
            .then(|| (self.state, self.memory.clone()));
        let reply = self.called(step);
        let kept = before.is_none_or(|before| self.keeps(&step.call, &reply, &before));
        Reply { kept, ..reply }
    }

    fn state(&self) -> State {
        let (held, memory) = (&self.state, &self.memory);
        let rate = |mark: u8, number: u64| (mark == 1).then_some(number);
        let block = |at: usize| {
            let rate = rate(memory.marks[at], memory.rates[at]);
            (memory.heights[at], (rate, memory.sizes[at]))
        };
        let hash = |at: usize| {
            let bytes = &memory.hash_bytes[32 * at..32 * at + 32];
            let bytes = bytes.try_into().expect("32 bytes");
            (memory.hash_heights[at], bytes)
        };
        let windows = &held.analog;
        let kept_rate = |at: usize| rate(held.kept_marks[at], held.kept_numbers[at]);
        State {
            blocks: (held.start..held.start + held.count).map(block).collect(),
            total: held.txstat_bytes,
            hashes: (0..held.hashes).map(hash).collect(),
            hurdles: memory.hurdles[windows.start..windows.start + windows.count].to_vec(),
            stale: held.analog_stale,
            rates: held
                .kept
                .then(|| (0..windows.tracked).map(kept_rate).collect()),
        }
    }

    fn pairs(&self) -> Pairs {
        let windows = &self.state.analog;
        let pairs_of = |place: usize| {
            let n = windows.targets[place];
            let lookback = crate::parts::windows::rattle::analog_lookback(n);
            let count = (windows.count + 1).saturating_sub(lookback + n.max(1) as usize);
            let first = place * windows.capacity + windows.start + lookback;
            let stored = first..first + count;
            let pair = |at: usize| (self.memory.befores[at], self.memory.aheads[at]);
            stored.map(pair).collect()
        };
        (0..windows.tracked).map(pairs_of).collect()
    }
}

/// The Rust's own type, of either tree.
pub trait History {
    fn new(budget: u64, targets: &[u32]) -> Self;
    fn step(&mut self, call: &Call, targets: &[u32]) -> Vec<u64>;
    fn below(&self, height: u32) -> usize;
    fn count(&self) -> usize;
    fn hashes(&self) -> usize;
    fn state(&self, targets: &[u32]) -> State;
    fn pairs(&self) -> Pairs;
}

macro_rules! rust_history {
    ($tree:ident) => {
        impl History for $tree::FeeHistory {
            fn new(budget: u64, targets: &[u32]) -> Self {
                $tree::FeeHistory::new(budget, targets)
            }

            fn step(&mut self, call: &Call, targets: &[u32]) -> Vec<u64> {
                let block = |(p10_sat_kvb, txstat_bytes)| $tree::HistoricalFeeBlock {
                    p10_sat_kvb,
                    txstat_bytes,
                };
                match *call {
                    Call::Insert(height, of, hash) => {
                        self.insert(height, block(of), hash.map(hash_bytes));
                    }
                    Call::InsertIfAbsent(height, of, hash) => {
                        self.insert_if_absent(height, block(of), hash.map(hash_bytes));
                    }
                    Call::TruncateAbove(height) => self.truncate_above(height),
                    Call::Get(height) => {
                        let Some(held) = self.get(height) else {
                            return vec![0; 4];
                        };
                        let [_, mark, number, bytes] =
                            row(height, (held.p10_sat_kvb, held.txstat_bytes));
                        return vec![1, mark, number, bytes];
                    }
                    Call::Entries => {
                        let rows = self.entries().into_iter();
                        let rows = rows.flat_map(|(h, b)| row(h, (b.p10_sat_kvb, b.txstat_bytes)));
                        return rows.collect();
                    }
                    Call::RecentHashes => {
                        let hashes = self.recent_hashes().into_iter();
                        let words =
                            |(h, bytes)| [&[u64::from(h)], &hash_words(&bytes)[..]].concat();
                        return hashes.flat_map(words).collect();
                    }
                    Call::Rates => {
                        let rates = self.rates();
                        let rate = |n: &u32| [u64::from(rates[n].is_some()), rates[n].unwrap_or(0)];
                        return targets.iter().flat_map(rate).collect();
                    }
                }
                Vec::new()
            }

            fn below(&self, height: u32) -> usize {
                self.blocks.range(..height).count()
            }

            fn count(&self) -> usize {
                self.blocks.len()
            }

            fn hashes(&self) -> usize {
                self.hashes.len()
            }

            fn state(&self, targets: &[u32]) -> State {
                let blocks = self.blocks.iter();
                let kept = |rates: &std::collections::HashMap<u32, Rate>| {
                    targets.iter().map(|n| rates[n]).collect()
                };
                State {
                    blocks: blocks
                        .map(|(h, b)| (*h, (b.p10_sat_kvb, b.txstat_bytes)))
                        .collect(),
                    total: self.txstat_bytes,
                    hashes: self.hashes.iter().map(|(h, bytes)| (*h, *bytes)).collect(),
                    hurdles: self.analog.hurdles.iter().copied().collect(),
                    stale: self.analog_stale,
                    rates: self.rates.as_ref().map(kept),
                }
            }

            fn pairs(&self) -> Pairs {
                let depths = self.analog.depths.iter();
                depths.map(|d| d.pairs.iter().copied().collect()).collect()
            }
        }
    };
}

use patched_net::fee_history as patched;
use upstream_net::fee_history as upstream;

pub type Patched = patched::FeeHistory;
pub type Upstream = upstream::FeeHistory;

rust_history!(patched);
rust_history!(upstream);

/// The Rust's history behind document 01's refusals: a refused call is not made.
pub struct Rust<H> {
    pub history: H,
    targets: Vec<u32>,
    rules: Rules,
}

impl<H: History> Rust<H> {
    fn refusal(&self, step: &Step) -> u8 {
        let height = match step.call {
            Call::Insert(height, ..) | Call::InsertIfAbsent(height, ..) => height,
            _ => 0,
        };
        let below = self.history.below(height);
        let through = match height.checked_add(1) {
            Some(next) => self.history.below(next),
            None => self.history.count(),
        };
        let held = Held {
            below,
            count: self.history.count(),
            is_held: through > below,
            hashes: self.history.hashes(),
        };
        self.rules.step(&held, step)
    }
}

impl<H: History> Side for Rust<H> {
    fn open(opening: &Opening) -> (Rust<H>, Reply) {
        let refusal = Rules::opening(opening);
        let (budget, targets, capacity) = match refusal {
            0 => (opening.budget, opening.targets.clone(), opening.capacity),
            // What a refused opening leaves takes no block.
            _ => (0, Vec::new(), 0),
        };
        let history = Rust {
            history: H::new(budget, &targets),
            rules: Rules {
                tracked: targets.len(),
                capacity,
            },
            targets,
        };
        (history, Reply::refused(refusal))
    }

    fn step(&mut self, step: &Step) -> Reply {
        match self.refusal(step) {
            0 => Reply::of(self.history.step(&step.call, &self.targets)),
            refusal => Reply::refused(refusal),
        }
    }

    fn state(&self) -> State {
        self.history.state(&self.targets)
    }

    fn pairs(&self) -> Pairs {
        self.history.pairs()
    }
}

/// An opening and calls.
pub type Case = (Opening, Vec<Step>);

/// Hundreds of calls, of which runs are left out before single ones are made smaller.
#[derive(Clone)]
pub struct LongCase(pub Case);

impl Words for LongCase {
    fn write(&self, out: &mut Vec<Word>) {
        self.0.write(out);
    }
}

impl Input for LongCase {
    fn smaller(&self) -> Vec<LongCase> {
        const FEW: usize = 40;
        let (opening, steps) = &self.0;
        if steps.len() <= FEW {
            return self.0.smaller().into_iter().map(LongCase).collect();
        }
        let fewer = without_runs(steps).into_iter();
        fewer
            .map(|steps| LongCase((opening.clone(), steps)))
            .collect()
    }
}

/// What a call was answered with, and the history after it.
pub struct After {
    pub reply: Reply,
    pub state: State,
}

impl Words for After {
    fn write(&self, out: &mut Vec<Word>) {
        self.reply.write(out);
        self.state.write(out);
    }
}

/// The history after each call.
pub fn run<S: Side>((opening, steps): &Case) -> Vec<After> {
    let (mut history, reply) = S::open(opening);
    let state = history.state();
    let mut out = vec![After { reply, state }];
    for step in steps {
        let reply = history.step(step);
        let state = history.state();
        out.push(After { reply, state });
    }
    out
}

/// The pairs after the last call.
pub fn last_pairs<S: Side>((opening, steps): &Case) -> Pairs {
    let (mut history, _) = S::open(opening);
    for step in steps {
        history.step(step);
    }
    history.pairs()
}
