//! The published fee module of `rbitcoin-net`.

pub mod fee_history;
