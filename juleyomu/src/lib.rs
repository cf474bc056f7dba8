//! Fee rates to confirm within N blocks, quoted beside a Bitcoin node.
//!
//! A safe wrapper over `libexports.a`, the proved port of rbitcoin's fee code. The port allocates nothing: it works in
//! memory that its caller lends. Here the types own that memory.
//!
//! - [`Meter`] notes each transaction that the mempool admits.
//! - [`History`] holds the newest blocks' rates and answers what such times asked for.
//! - [`capacity`] finds the least rate at which the pool fits into so many blocks.
//! - [`Board`] puts projected, frontier and history rates together and quotes a target.
//!
//! Rates are sat/kvB, weights are weight units (WU), targets, depths and heights count blocks, clocks are nanoseconds.
//! A rate that is missing is `None`: nothing here invents one. A call that the port turns away is a [`Refusal`], and
//! leaves everything as it was.
//!
//! ```
//! use juleyomu::{Board, DepthInputs};
//!
//! let board = Board::publish(&DepthInputs {
//!     depths: &[2, 6, 12],
//!     projected: &[None, None, None],
//!     frontier: &[None, None, None],
//!     history: &[None, Some(600), Some(300)],
//!     confirm: None,
//!     share: 0.0,
//! })?;
//! assert_eq!(board.quote(4), None);
//! assert_eq!(board.quote(9), Some(450));
//! # Ok::<(), juleyomu::Refusal>(())
//! ```

mod board;
pub mod capacity;
#[allow(unsafe_code)]
mod ffi;
mod history;
mod marked;
mod memory;
mod meter;
mod refusal;
pub mod statistics;

pub use board::{
    Board, DepthInputs, fee_at_target, hold_defined_then_monotone, lerp, published_depth_rates,
    warmup_blend,
};
pub use history::{Block, History, MAX_CAPACITY, MAX_TARGETS, RECENT_HASHES};
pub use memory::LentBytes;
pub use meter::Meter;
pub use refusal::Refusal;
