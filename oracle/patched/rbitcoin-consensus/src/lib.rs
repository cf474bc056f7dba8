//! A stub of the crate `rbitcoin-consensus`: what the fee code names of it.

pub mod policy {
    /// 0.1 sat/vB.
    pub const MIN_RELAY_FEE_RATE_SAT_PER_KVB: u64 = 100;

    /// Needed to compile `block_individual_p10_sat_kvb`. The port leaves both out, and neither is
    /// compared.
    pub fn fee_rate_sat_per_kvb(fee: u64, weight: u64) -> u64 {
        fee.saturating_mul(4_000) / weight
    }
}
