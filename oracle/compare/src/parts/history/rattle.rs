//! The functions of the Rattle crate `exports`, and the memory that is lent to them.

use crate::parts::windows::rattle as windows;
pub use windows::CountFields;

/// The port's state.
#[repr(C)]
#[derive(Clone, Copy, PartialEq)]
pub struct State {
    pub analog: windows::State,
    pub analog_stale: bool,
    pub start: usize,
    pub count: usize,
    pub txstat_bytes: u64,
    pub budget: u64,
    pub hashes: usize,
    pub kept: bool,
    pub kept_numbers: [u64; 16],
    pub kept_marks: [u8; 16],
}

/// The number of a refusal or 0, and the state.
#[repr(C)]
pub struct HistoryFields {
    pub refusal: u8,
    pub state: State,
}

/// The rate is there under the mark 1.
#[repr(C)]
#[derive(Clone, Copy)]
pub struct MarkedBlock {
    pub mark: u8,
    pub rate: u64,
    pub bytes: u64,
}

/// The number of a refusal or 0; whether the height is held, and its block.
#[repr(C)]
pub struct BlockFields {
    pub refusal: u8,
    pub held: bool,
    pub block: MarkedBlock,
}

#[repr(C)]
#[derive(Clone, Copy)]
pub struct BlockHash {
    pub there: bool,
    pub bytes: [u8; 32],
}

/// The places that the hashes' lists need, whatever the capacity.
pub const RECENT_HASHES: usize = 144;

/// Places beyond those asked for: lent too, but for `EXACT`.
const SLACK: usize = 3;

/// Memory for a history, and lists for its answers, with contents that no call leaves there.
#[derive(Clone)]
pub struct Memory {
    pub heights: Vec<u32>,
    pub marks: Vec<u8>,
    pub rates: Vec<u64>,
    pub sizes: Vec<u64>,
    pub hash_heights: Vec<u32>,
    pub hash_bytes: Vec<u8>,
    pub hurdles: Vec<u64>,
    pub befores: Vec<f64>,
    pub aheads: Vec<u64>,
    pub scratch: Vec<u64>,
    pub out_heights: Vec<u32>,
    pub out_marks: Vec<u8>,
    pub out_numbers: Vec<u64>,
    pub out_sizes: Vec<u64>,
    pub out_bytes: Vec<u8>,
}

/// Which list is lent one place shorter than asked for.
pub const HEIGHTS: u8 = 1;
pub const MARKS: u8 = 2;
pub const RATES: u8 = 3;
pub const SIZES: u8 = 4;
pub const HASH_HEIGHTS: u8 = 5;
pub const HASH_BYTES: u8 = 6;
pub const HURDLES: u8 = 7;
pub const BEFORES: u8 = 8;
pub const AHEADS: u8 = 9;
pub const SCRATCH: u8 = 10;
pub const OUT_HEIGHTS: u8 = 11;
pub const OUT_SIZES: u8 = 12;
pub const OUT_BYTES: u8 = 13;
/// Numbers and marks both; the next two one of them alone, so that the lengths differ.
pub const OUT_RATES: u8 = 14;
pub const OUT_NUMBERS: u8 = 15;
pub const OUT_MARKS: u8 = 16;
/// No list is too short, and each is lent exactly as long as asked for.
pub const EXACT: u8 = 17;

/// What one call is lent.
pub struct Lists<'a> {
    pub heights: &'a mut [u32],
    pub marks: &'a mut [u8],
    pub rates: &'a mut [u64],
    pub sizes: &'a mut [u64],
    pub hash_heights: &'a mut [u32],
    pub hash_bytes: &'a mut [u8],
    pub hurdles: &'a mut [u64],
    pub befores: &'a mut [f64],
    pub aheads: &'a mut [u64],
    pub scratch: &'a mut [u64],
    pub out_heights: &'a mut [u32],
    pub out_marks: &'a mut [u8],
    pub out_numbers: &'a mut [u64],
    pub out_sizes: &'a mut [u64],
    pub out_bytes: &'a mut [u8],
}

/// How long the lists must be.
#[derive(Clone, Copy, Default)]
pub struct Asked {
    pub capacity: usize,
    pub tracked: usize,
    /// The answer's rows, hashes or rates.
    pub answer: usize,
}

/// A list's front, as long as it is lent.
fn front<T>(list: &mut [T], asked: usize, is_short: bool, short: u8) -> &mut [T] {
    let length = if is_short {
        list.len().min(asked.saturating_sub(1))
    } else if short == EXACT {
        list.len().min(asked)
    } else {
        list.len()
    };
    &mut list[..length]
}

impl Memory {
    pub fn new(tracked: usize, capacity: usize) -> Memory {
        let words = |places: usize, salt: u64| {
            let word = move |place| (place as u64 ^ salt).wrapping_mul(0x9E37_79B9_7F4A_7C15) >> 2;
            (0..places + SLACK).map(word)
        };
        let pairs = tracked * capacity;
        let rows = capacity.max(RECENT_HASHES);
        let heights = |places, salt| words(places, salt).map(|word| word as u32);
        let bytes = |places, salt| words(places, salt).map(|word| word as u8);
        Memory {
            heights: heights(capacity, 1 << 40).collect(),
            marks: bytes(capacity, 1 << 41).collect(),
            rates: words(capacity, 1 << 42).collect(),
            sizes: words(capacity, 1 << 43).collect(),
            hash_heights: heights(RECENT_HASHES, 1 << 44).collect(),
            hash_bytes: bytes(32 * RECENT_HASHES, 1 << 45).collect(),
            hurdles: words(capacity, 1 << 46).collect(),
            befores: words(pairs, 1 << 47).map(f64::from_bits).collect(),
            aheads: words(pairs, 1 << 48).collect(),
            scratch: words(capacity, 1 << 49).collect(),
            out_heights: heights(rows, 1 << 50).collect(),
            out_marks: bytes(rows, 1 << 51).collect(),
            out_numbers: words(rows, 1 << 52).collect(),
            out_sizes: words(rows, 1 << 53).collect(),
            out_bytes: bytes(32 * RECENT_HASHES, 1 << 54).collect(),
        }
    }

    /// The list that `short` names one place shorter than asked for, or every list exactly as long.
    pub fn lend(&mut self, short: u8, asked: Asked) -> Lists<'_> {
        let Asked {
            capacity,
            tracked,
            answer,
        } = asked;
        let pairs = tracked.saturating_mul(capacity);
        let is = |list: u8| list == short;
        let rates_are = is(OUT_RATES);
        Lists {
            heights: front(&mut self.heights, capacity, is(HEIGHTS), short),
            marks: front(&mut self.marks, capacity, is(MARKS), short),
            rates: front(&mut self.rates, capacity, is(RATES), short),
            sizes: front(&mut self.sizes, capacity, is(SIZES), short),
            hash_heights: front(
                &mut self.hash_heights,
                RECENT_HASHES,
                is(HASH_HEIGHTS),
                short,
            ),
            hash_bytes: front(
                &mut self.hash_bytes,
                32 * RECENT_HASHES,
                is(HASH_BYTES),
                short,
            ),
            hurdles: front(&mut self.hurdles, capacity, is(HURDLES), short),
            befores: front(&mut self.befores, pairs, is(BEFORES), short),
            aheads: front(&mut self.aheads, pairs, is(AHEADS), short),
            scratch: front(&mut self.scratch, capacity, is(SCRATCH), short),
            out_heights: front(&mut self.out_heights, answer, is(OUT_HEIGHTS), short),
            out_marks: front(
                &mut self.out_marks,
                answer,
                is(OUT_MARKS) || rates_are,
                short,
            ),
            out_numbers: front(
                &mut self.out_numbers,
                answer,
                is(OUT_NUMBERS) || rates_are,
                short,
            ),
            out_sizes: front(&mut self.out_sizes, answer, is(OUT_SIZES), short),
            out_bytes: front(&mut self.out_bytes, 32 * answer, is(OUT_BYTES), short),
        }
    }
}

/// A function over lists, each of which passes as a pointer and a length.
macro_rules! lends {
    ($function:ident as $link:ident ($($name:ident: $type:ty),*) [$($list:ident: $element:ty),*] -> $answer:ty) => {
        pub fn $function($($name: $type,)* lent: &mut Lists) -> $answer {
            unsafe extern "C" {
                fn $link($($name: $type,)* $(_: *mut $element, _: usize,)*) -> $answer;
            }
            // SAFETY: each pointer and length are one slice's, and the slices do not overlap. The
            // pointers come from unique slices, so that a write to a list that is only read would show.
            unsafe { $link($($name,)* $(lent.$list.as_mut_ptr(), lent.$list.len(),)*) }
        }
    };
}

lends!(get as juleyomu_history_get(state: State, height: u32)
    [heights: u32, marks: u8, rates: u64, sizes: u64] -> BlockFields);
lends!(insert as juleyomu_history_insert(state: State, height: u32, block: MarkedBlock, hash: BlockHash)
    [heights: u32, marks: u8, rates: u64, sizes: u64, hash_heights: u32, hash_bytes: u8,
     hurdles: u64, befores: f64, aheads: u64] -> HistoryFields);
lends!(insert_if_absent as juleyomu_history_insert_if_absent(state: State, height: u32, block: MarkedBlock, hash: BlockHash)
    [heights: u32, marks: u8, rates: u64, sizes: u64, hash_heights: u32, hash_bytes: u8,
     hurdles: u64, befores: f64, aheads: u64] -> HistoryFields);
lends!(truncate_above as juleyomu_history_truncate_above(state: State, height: u32)
    [heights: u32, marks: u8, rates: u64, sizes: u64, hash_heights: u32, hash_bytes: u8] -> HistoryFields);
lends!(rates as juleyomu_history_rates(state: State)
    [heights: u32, marks: u8, rates: u64, sizes: u64, hurdles: u64, befores: f64, aheads: u64,
     scratch: u64, out_numbers: u64, out_marks: u8] -> HistoryFields);
lends!(entries as juleyomu_history_entries(state: State)
    [heights: u32, marks: u8, rates: u64, sizes: u64,
     out_heights: u32, out_marks: u8, out_numbers: u64, out_sizes: u64] -> CountFields);
lends!(recent_hashes as juleyomu_history_recent_hashes(state: State)
    [hash_heights: u32, hash_bytes: u8, out_heights: u32, out_bytes: u8] -> CountFields);

pub fn new(budget: u64, targets: &mut [u32], capacity: usize, lent: &mut Lists) -> HistoryFields {
    let (pointer, length) = (targets.as_mut_ptr(), targets.len());
    lends!(opened as juleyomu_history_new(budget: u64, targets: *mut u32, tracked: usize, capacity: usize)
        [heights: u32, marks: u8, rates: u64, sizes: u64, hash_heights: u32, hash_bytes: u8,
         hurdles: u64, befores: f64, aheads: u64] -> HistoryFields);
    opened(budget, pointer, length, capacity, lent)
}
