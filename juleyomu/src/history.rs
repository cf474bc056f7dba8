//! The held blocks.

use crate::ffi::{self, BlockHash, FeeHistory, HistoryFields, MarkedBlock};
use crate::marked::{Marked, rate_of};
use crate::memory::{LentBytes, Memory};
use crate::refusal::{Refusal, accepted};

/// Hashes kept, at most; one more drops the oldest.
pub const RECENT_HASHES: usize = 144;

/// Targets of one history, at most.
pub const MAX_TARGETS: usize = 16;

/// Blocks of one history, at most.
pub const MAX_CAPACITY: usize = 65_536;

/// Why a call that is never refused is not.
const OWN_MEMORY: &str = "a history lends memory of its own size";

/// A block: its rate, and how many bytes it takes of the history's budget.
#[derive(Clone, Copy, Debug, PartialEq, Eq, Hash)]
pub struct Block {
    /// What it asked for (sat/kvB); none for a block with its coinbase alone, or with every transaction below
    /// the least relay rate.
    pub rate: Option<u64>,
    /// Its byte count.
    pub bytes: u64,
}

/// The newest blocks up to a budget of bytes, and what such times asked for within each target.
///
/// It owns the memory that the port works in, allocated at the opening; `rates`, `entries` and `recent_hashes`
/// allocate their answers.
#[derive(Clone, Debug)]
pub struct History {
    state: FeeHistory,
    memory: Memory,
}

impl History {
    /// A history with nothing held, of at most `budget` bytes and `capacity` blocks, for these targets in blocks.
    ///
    /// A connect above all held heights needs a free place even where an eviction would follow: give a capacity some places above what the
    /// budget holds. A small slack makes a connect move all that is held more often.
    ///
    /// # Errors
    ///
    /// [`Refusal::Targets`] for more than [`MAX_TARGETS`] targets, then [`Refusal::Memory`] for a capacity above
    /// [`MAX_CAPACITY`].
    pub fn open(budget: u64, targets: &[u32], capacity: usize) -> Result<History, Refusal> {
        let tracked = targets.len().min(MAX_TARGETS);
        let memory = Memory::new(tracked, capacity.min(MAX_CAPACITY));
        let opened = ffi::history_new(budget, targets, capacity, &memory);
        accepted(opened.refusal)?;
        let state = opened.state;
        Ok(History { state, memory })
    }

    /// Connects a block: it replaces its height and every height above. The oldest blocks go while the budget is
    /// exceeded.
    ///
    /// # Errors
    ///
    /// [`Refusal::Full`] when the held heights below it already fill the capacity.
    pub fn connect(
        &mut self,
        height: u32,
        block: Block,
        hash: Option<[u8; 32]>,
    ) -> Result<(), Refusal> {
        let (block, hash) = (block.into(), hash.into());
        let update = ffi::history_insert(self.state, height, block, hash, &mut self.memory);
        self.keep(update)
    }

    /// Preloads a block: it is kept only where its height is not held.
    ///
    /// # Errors
    ///
    /// [`Refusal::Full`] for an absent height when the history is full.
    pub fn preload(
        &mut self,
        height: u32,
        block: Block,
        hash: Option<[u8; 32]>,
    ) -> Result<(), Refusal> {
        let (block, hash) = (block.into(), hash.into());
        let update =
            ffi::history_insert_if_absent(self.state, height, block, hash, &mut self.memory);
        self.keep(update)
    }

    /// Drops every block above a height; at `u32::MAX` that height too.
    pub fn truncate_above(&mut self, height: u32) {
        let update = ffi::history_truncate_above(self.state, height, &self.memory);
        self.keep(update).expect(OWN_MEMORY);
    }

    /// The historical rate for each target, in their order; none while a target has under 2,000 pairs.
    ///
    /// Unless an answer is kept, the pairs of every target that has as many are scanned; the answer is then kept until the
    /// next accepted connect, accepted preload of an absent height, or cut.
    pub fn rates(&mut self) -> Vec<Option<u64>> {
        let mut out = Marked::missing(self.state.analog.tracked);
        let update = ffi::history_rates(self.state, &mut self.memory, &mut out);
        self.keep(update).expect(OWN_MEMORY);
        out.rates()
    }

    /// The held block of a height.
    #[must_use]
    pub fn get(&self, height: u32) -> Option<Block> {
        let found = ffi::history_get(self.state, height, &self.memory);
        accepted(found.refusal).expect(OWN_MEMORY);
        found.held.then(|| found.block.into())
    }

    /// The held blocks with their heights, oldest first.
    #[must_use]
    pub fn entries(&self) -> Vec<(u32, Block)> {
        let mut heights = vec![0; self.len()];
        let mut rates = Marked::missing(self.len());
        let mut sizes = vec![0; self.len()];
        let counted = ffi::history_entries(
            self.state,
            &self.memory,
            &mut heights,
            &mut rates,
            &mut sizes,
        );
        accepted(counted.refusal).expect(OWN_MEMORY);
        let blocks = rates.rates().into_iter().zip(sizes);
        let blocks = blocks.map(|(rate, bytes)| Block { rate, bytes });
        heights.into_iter().zip(blocks).collect()
    }

    /// The kept hashes with their heights, oldest first.
    #[must_use]
    pub fn recent_hashes(&self) -> Vec<(u32, [u8; 32])> {
        let mut heights = vec![0; self.state.hashes];
        let mut bytes = vec![0; 32 * self.state.hashes];
        let counted =
            ffi::history_recent_hashes(self.state, &self.memory, &mut heights, &mut bytes);
        accepted(counted.refusal).expect(OWN_MEMORY);
        let (hashes, _) = bytes.as_chunks::<32>();
        heights.into_iter().zip(hashes.iter().copied()).collect()
    }

    /// The kept byte total: the sum over the held blocks, as long as that sum has always fitted a u64, before each
    /// eviction too.
    #[must_use]
    pub fn byte_total(&self) -> u64 {
        self.state.txstat_bytes
    }

    /// The bytes that the held blocks may have.
    #[must_use]
    pub fn budget(&self) -> u64 {
        self.state.budget
    }

    /// The tracked targets in blocks.
    #[must_use]
    pub fn targets(&self) -> &[u32] {
        &self.state.analog.targets[..self.state.analog.tracked]
    }

    /// How many blocks there is room for.
    #[must_use]
    pub fn capacity(&self) -> usize {
        self.state.analog.capacity
    }

    /// How many blocks are held.
    #[must_use]
    pub fn len(&self) -> usize {
        self.state.count
    }

    /// Whether no block is held.
    #[must_use]
    pub fn is_empty(&self) -> bool {
        self.len() == 0
    }

    /// The bytes that this history lends to the port.
    #[must_use]
    pub fn lent_bytes(&self) -> LentBytes {
        self.memory.bytes()
    }

    fn keep(&mut self, update: HistoryFields) -> Result<(), Refusal> {
        self.state = update.state;
        accepted(update.refusal)
    }
}

impl From<Block> for MarkedBlock {
    fn from(block: Block) -> MarkedBlock {
        MarkedBlock {
            mark: u8::from(block.rate.is_some()),
            rate: block.rate.unwrap_or(0),
            bytes: block.bytes,
        }
    }
}

impl From<MarkedBlock> for Block {
    fn from(marked: MarkedBlock) -> Block {
        Block {
            rate: rate_of(marked.mark, marked.rate),
            bytes: marked.bytes,
        }
    }
}

impl From<Option<[u8; 32]>> for BlockHash {
    fn from(hash: Option<[u8; 32]>) -> BlockHash {
        BlockHash {
            there: hash.is_some(),
            bytes: hash.unwrap_or_default(),
        }
    }
}
