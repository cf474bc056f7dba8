//! The memory that a history lends.

use crate::ffi::FeeHistory;
use crate::history::RECENT_HASHES;
use std::mem::{size_of, size_of_val};

/// The lists that a history of a capacity and so many targets needs.
#[derive(Clone, Debug)]
pub(crate) struct Memory {
    pub(crate) heights: Vec<u32>,
    pub(crate) marks: Vec<u8>,
    pub(crate) rates: Vec<u64>,
    pub(crate) sizes: Vec<u64>,
    pub(crate) hash_heights: Vec<u32>,
    pub(crate) hash_bytes: Vec<u8>,
    pub(crate) hurdles: Vec<u64>,
    pub(crate) befores: Vec<f64>,
    pub(crate) aheads: Vec<u64>,
    pub(crate) scratch: Vec<u64>,
}

/// The bytes that a history lends to the port.
#[derive(Clone, Copy, Debug, PartialEq, Eq)]
pub struct LentBytes {
    /// Heights, marks, rates and byte counts of the held blocks.
    pub rows: usize,
    /// Kept hashes and their heights.
    pub hashes: usize,
    /// The held rates, once more in a row.
    pub hurdles: usize,
    /// The pairs of every target.
    pub pairs: usize,
    /// The list that a scan works in.
    pub scratch: usize,
    /// The state, which passes by value.
    pub state: usize,
}

impl LentBytes {
    /// All of it.
    #[must_use]
    pub fn total(&self) -> usize {
        self.rows + self.hashes + self.hurdles + self.pairs + self.scratch + self.state
    }
}

impl Memory {
    pub(crate) fn new(targets: usize, capacity: usize) -> Memory {
        Memory {
            heights: vec![0; capacity],
            marks: vec![0; capacity],
            rates: vec![0; capacity],
            sizes: vec![0; capacity],
            hash_heights: vec![0; RECENT_HASHES],
            hash_bytes: vec![0; 32 * RECENT_HASHES],
            hurdles: vec![0; capacity],
            befores: vec![0.0; targets * capacity],
            aheads: vec![0; targets * capacity],
            scratch: vec![0; capacity],
        }
    }

    pub(crate) fn bytes(&self) -> LentBytes {
        LentBytes {
            rows: size_of_val(&*self.heights)
                + size_of_val(&*self.marks)
                + size_of_val(&*self.rates)
                + size_of_val(&*self.sizes),
            hashes: size_of_val(&*self.hash_heights) + size_of_val(&*self.hash_bytes),
            hurdles: size_of_val(&*self.hurdles),
            pairs: size_of_val(&*self.befores) + size_of_val(&*self.aheads),
            scratch: size_of_val(&*self.scratch),
            state: size_of::<FeeHistory>(),
        }
    }
}
