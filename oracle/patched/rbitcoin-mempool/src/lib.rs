//! The published fee modules of `rbitcoin-mempool`, and the names that `rbitcoin-net` takes from
//! them.

pub mod fee_analog;
pub mod fee_est;
pub mod fee_flow;
pub mod stand_in;

pub use fee_analog::{AnalogHistory, HISTORICAL_CONFIDENCE_FAR};
pub use fee_est::CONFIDENCE_NEAR;
