//! What the definitions of crates/rbitcoin_net/specs say of a history in memory of any contents, for
//! states that no call made. Most functions name the definition that they follow.

use super::rattle::{Lists, Memory, RECENT_HASHES, State};
use super::sides::{Block, Call, Reply, Step, asked, hash_bytes, hash_words};
use crate::parts::windows::model::{self, Windows};
use crate::parts::windows::rattle::State as Analog;

pub struct Model {
    pub state: State,
    pub memory: Memory,
}

/// `bisect` in crates/slices/specs/Search.antt: where heights ascend, the first place whose height is at least `height`.
fn bisect(heights: &[u32], height: u32, mut low: usize, mut high: usize) -> usize {
    while low < high {
        let middle = low + (high - low) / 2;
        if heights[middle] < height {
            low = middle + 1;
        } else {
            high = middle;
        }
    }
    low
}

/// Rooms.antt, `rowPut`: a value put in behind the first `front` of the held elements.
fn opened<T: Copy>(
    list: &mut [T],
    (from, to): (usize, usize),
    (front, back): (usize, usize),
    value: T,
) {
    let (first, rest) = (from..from + front, from + front..from + front + back);
    if to <= from {
        list.copy_within(first, to);
        list.copy_within(rest, to + front + 1);
    } else {
        list.copy_within(rest, to + front + 1);
        list.copy_within(first, to);
    }
    list[to + front] = value;
}

/// Lent.antt, `stateRefusal`.
fn state_refusal(state: &State) -> u8 {
    let end = state.start.saturating_add(state.count);
    match model::state_refusal(&state.analog) {
        0 if end > state.analog.capacity || state.hashes > RECENT_HASHES => 5,
        refusal => refusal,
    }
}

/// Whether a list that the call is lent is too short.
fn lacks(state: &State, call: &Call, lent: &Lists) -> bool {
    let Analog {
        tracked, capacity, ..
    } = state.analog;
    let short = |lengths: &[usize], asked: usize| lengths.iter().any(|length| *length < asked);
    let of_rows = [lent.heights.len(), lent.marks.len(), lent.rates.len()];
    let rows = short(&of_rows, capacity) || lent.sizes.len() < capacity;
    let hashes =
        lent.hash_heights.len() < RECENT_HASHES || lent.hash_bytes.len() < 32 * RECENT_HASHES;
    let of_pairs = [lent.befores.len(), lent.aheads.len()];
    let windows = lent.hurdles.len() < capacity || short(&of_pairs, tracked * capacity);
    let of_rates = [lent.out_numbers.len(), lent.out_marks.len()];
    match call {
        Call::Insert(..) | Call::InsertIfAbsent(..) => rows || hashes || windows,
        Call::TruncateAbove(_) => rows || hashes,
        Call::Get(_) => rows,
        Call::Entries => {
            let out = [lent.out_heights.len(), lent.out_sizes.len()];
            rows || short(&of_rates, state.count) || short(&out, state.count)
        }
        Call::RecentHashes => {
            let heights = lent.out_heights.len() < state.hashes;
            hashes || heights || lent.out_bytes.len() < 32 * state.hashes
        }
        Call::Rates => {
            let scratch = lent.scratch.len() < capacity;
            rows || windows || scratch || short(&of_rates, tracked)
        }
    }
}

/// Readers.antt, `wrote`.
fn wrote<T: Copy>(list: &mut [T], front: &[T]) {
    list[..front.len()].copy_from_slice(front);
}

impl Model {
    pub fn called(&mut self, step: &Step) -> Reply {
        let refusal = self.refusal(step);
        if refusal != 0 {
            return Reply::refused(refusal);
        }
        match step.call {
            Call::Insert(height, block, hash) => {
                self.insert(height, block, hash.map(hash_bytes));
            }
            Call::InsertIfAbsent(height, block, hash) => {
                self.insert_if_absent(height, block, hash.map(hash_bytes));
            }
            Call::TruncateAbove(height) => self.drop_from(height.saturating_add(1)),
            Call::Get(height) => return self.get(height),
            Call::Entries => return self.entries(),
            Call::RecentHashes => return self.recent_hashes(),
            Call::Rates => return self.rates(),
        }
        Reply::of(Vec::new())
    }

    /// 1, then the state's, then 5 for a list that is too short, then 4.
    fn refusal(&mut self, step: &Step) -> u8 {
        let state = self.state;
        let lent = self.memory.lend(step.short, asked(&state, &step.call));
        let unequal = lent.out_numbers.len() != lent.out_marks.len();
        if unequal && matches!(step.call, Call::Entries | Call::Rates) {
            return 1;
        }
        match state_refusal(&state) {
            0 if lacks(&state, &step.call, &lent) => 5,
            0 if self.is_full(&step.call) => 4,
            refusal => refusal,
        }
    }

    fn is_full(&self, call: &Call) -> bool {
        let State { start, count, .. } = self.state;
        let capacity = self.state.analog.capacity;
        match *call {
            Call::Insert(height, ..) => self.place_of(height) - start == capacity,
            Call::InsertIfAbsent(height, ..) => !self.is_held(height) && count == capacity,
            _ => false,
        }
    }

    fn place_of(&self, height: u32) -> usize {
        let State { start, count, .. } = self.state;
        bisect(&self.memory.heights, height, start, start + count)
    }

    fn is_held(&self, height: u32) -> bool {
        let place = self.place_of(height);
        place < self.state.start + self.state.count && self.memory.heights[place] == height
    }

    fn windows(&mut self) -> Windows<'_> {
        Windows {
            state: &mut self.state.analog,
            hurdles: &mut self.memory.hurdles,
            befores: &mut self.memory.befores,
            aheads: &mut self.memory.aheads,
        }
    }

    /// Inserts.antt, `pushRate`. A push onto full windows changes nothing.
    fn push_rate(&mut self, rate: Option<u64>, newest: bool) {
        if let (Some(rate), false) = (rate, self.state.analog_stale) {
            self.windows().push(rate, newest);
        }
    }

    /// Cuts.antt, `forgetRow`, of the row at a place.
    fn forget_row(&mut self, place: usize, newest: bool) {
        if self.memory.marks[place] == 1 && !self.state.analog_stale {
            model::pop(&mut self.state.analog, newest);
        }
        let total = &mut self.state.txstat_bytes;
        *total = total.saturating_sub(self.memory.sizes[place]);
    }

    /// Cuts.antt, `dropFrom`.
    fn drop_from(&mut self, height: u32) {
        let place = self.place_of(height);
        for row in place..self.state.start + self.state.count {
            self.forget_row(row, true);
        }
        self.state.count = place - self.state.start;
        self.state.kept = false;
        self.state.hashes = self.hash_place(height);
    }

    fn insert(&mut self, height: u32, block: Block, hash: Option<[u8; 32]>) {
        self.drop_from(height);
        self.push_rate(block.0, true);
        self.store(self.state.count, height, block, hash);
    }

    /// Behind the hurdles, in front of them, or nowhere: then they are stale.
    fn insert_if_absent(&mut self, height: u32, block: Block, hash: Option<[u8; 32]>) {
        if self.is_held(height) {
            return;
        }
        let rank = self.place_of(height) - self.state.start;
        if rank == self.state.count {
            self.push_rate(block.0, true);
        } else if rank == 0 {
            self.push_rate(block.0, false);
        } else {
            self.state.analog_stale |= block.0.is_some();
        }
        self.state.kept = false;
        self.store(rank, height, block, hash);
    }

    /// Inserts.antt, `storeIn`.
    fn store(&mut self, rank: usize, height: u32, block: Block, hash: Option<[u8; 32]>) {
        self.hold_at(rank, height, block);
        if let Some(bytes) = hash {
            self.note_hash(height, bytes);
        }
        self.evict();
    }

    /// Rooms.antt, `startWith`.
    fn start_with(&self, rank: usize) -> usize {
        let State {
            start,
            count,
            analog: Analog { capacity, .. },
            ..
        } = self.state;
        let free = capacity - count;
        if rank < count - rank {
            match start {
                0 => free - free / 4 - 1,
                _ => start - 1,
            }
        } else if start + count == capacity {
            free / 4
        } else {
            start
        }
    }

    /// Rooms.antt, `holdAt`.
    fn hold_at(&mut self, rank: usize, height: u32, (rate, bytes): Block) {
        let moved = (self.state.start, self.start_with(rank));
        let split = (rank, self.state.count - rank);
        let memory = &mut self.memory;
        opened(&mut memory.heights, moved, split, height);
        opened(&mut memory.marks, moved, split, u8::from(rate.is_some()));
        opened(&mut memory.rates, moved, split, rate.unwrap_or(0));
        opened(&mut memory.sizes, moved, split, bytes);
        self.state.start = moved.1;
        self.state.count += 1;
        self.state.txstat_bytes = self.state.txstat_bytes.saturating_add(bytes);
    }

    fn hash_place(&self, height: u32) -> usize {
        bisect(&self.memory.hash_heights, height, 0, self.state.hashes)
    }

    fn has_hash(&self, place: usize, height: u32) -> bool {
        place < self.state.hashes && self.memory.hash_heights[place] == height
    }

    fn move_hashes(&mut self, to: usize, from: usize, count: usize) {
        let memory = &mut self.memory;
        memory.hash_heights.copy_within(from..from + count, to);
        let bytes = 32 * from..32 * (from + count);
        memory.hash_bytes.copy_within(bytes, 32 * to);
    }

    /// Hashes.antt, `noteAt`.
    fn note_hash(&mut self, height: u32, bytes: [u8; 32]) {
        let (place, count) = (self.hash_place(height), self.state.hashes);
        let put = if self.has_hash(place, height) {
            place
        } else if count < RECENT_HASHES {
            self.move_hashes(place + 1, place, count - place);
            self.state.hashes += 1;
            place
        } else if place == 0 {
            return;
        } else {
            self.move_hashes(0, 1, place - 1);
            place - 1
        };
        self.memory.hash_heights[put] = height;
        wrote(&mut self.memory.hash_bytes[32 * put..], &bytes);
    }

    /// Hashes.antt, `removeHash`.
    fn remove_hash(&mut self, height: u32) {
        let place = self.hash_place(height);
        if self.has_hash(place, height) {
            self.move_hashes(place, place + 1, self.state.hashes - place - 1);
            self.state.hashes -= 1;
        }
    }

    /// Evictions.antt, `evictIn`.
    fn evict(&mut self) {
        self.state.kept = false;
        while self.state.txstat_bytes > self.state.budget {
            if self.state.count == 0 {
                self.state.txstat_bytes = 0;
                return;
            }
            let oldest = self.state.start;
            self.remove_hash(self.memory.heights[oldest]);
            self.forget_row(oldest, false);
            self.state.start += 1;
            self.state.count -= 1;
        }
    }

    /// A stored mark other than 1 is a missing rate: mark, number and bytes of a row.
    fn row(&self, place: usize) -> (u8, u64, u64) {
        let bytes = self.memory.sizes[place];
        match self.memory.marks[place] {
            1 => (1, self.memory.rates[place], bytes),
            _ => (0, 0, bytes),
        }
    }

    fn get(&self, height: u32) -> Reply {
        if !self.is_held(height) {
            return Reply::of(vec![0; 4]);
        }
        let (mark, number, bytes) = self.row(self.place_of(height));
        Reply::of(vec![1, mark.into(), number, bytes])
    }

    fn entries(&mut self) -> Reply {
        let State { start, count, .. } = self.state;
        let mut answer = Vec::new();
        for (to, place) in (start..start + count).enumerate() {
            let (mark, number, bytes) = self.row(place);
            let memory = &mut self.memory;
            let height = memory.heights[place];
            memory.out_heights[to] = height;
            memory.out_marks[to] = mark;
            memory.out_numbers[to] = number;
            memory.out_sizes[to] = bytes;
            answer.extend([height.into(), mark.into(), number, bytes]);
        }
        Reply::of(answer)
    }

    fn recent_hashes(&mut self) -> Reply {
        let count = self.state.hashes;
        let memory = &mut self.memory;
        wrote(&mut memory.out_heights, &memory.hash_heights[..count]);
        wrote(&mut memory.out_bytes, &memory.hash_bytes[..32 * count]);
        let bytes = memory.hash_bytes.chunks(32).take(count);
        let hash = |(height, bytes): (&u32, &[u8])| {
            let words = hash_words(bytes.try_into().expect("32 bytes"));
            [&[u64::from(*height)], &words[..]].concat()
        };
        Reply::of(
            memory
                .hash_heights
                .iter()
                .zip(bytes)
                .flat_map(hash)
                .collect(),
        )
    }

    /// Rates.antt, `ratesIn`, and what is kept at the front of the caller's lists.
    fn rates(&mut self) -> Reply {
        if !self.state.kept {
            self.work_out_rates();
        }
        let tracked = self.state.analog.tracked;
        let mut answer = Vec::new();
        for target in 0..tracked {
            let (mark, number) = match self.state.kept_marks[target] {
                1 => (1, self.state.kept_numbers[target]),
                _ => (0, 0),
            };
            self.memory.out_marks[target] = mark;
            self.memory.out_numbers[target] = number;
            answer.extend([mark.into(), number]);
        }
        Reply::of(answer)
    }

    fn work_out_rates(&mut self) {
        let State { start, count, .. } = self.state;
        if self.state.analog_stale {
            let rows = (start..start + count).map(|place| self.row(place));
            let there = rows.filter(|(mark, ..)| *mark == 1);
            let hurdles: Vec<u64> = there.map(|(_, number, _)| number).collect();
            self.windows().rebuild(&hurdles);
        }
        let (mut numbers, mut marks) = ([0; 16], [0; 16]);
        let targets = self.state.analog.targets;
        for place in 0..self.state.analog.tracked {
            let confidence = if targets[place] <= 1 { 0.999 } else { 0.95 };
            let rate = self.windows().rate(targets[place], confidence);
            marks[place] = u8::from(rate.is_some());
            numbers[place] = rate.unwrap_or(0);
        }
        self.state.analog_stale = false;
        self.state.kept = true;
        (self.state.kept_numbers, self.state.kept_marks) = (numbers, marks);
    }
}
