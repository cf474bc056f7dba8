//! Rates that may be missing, as the port takes and gives them: numbers with marks.

use crate::ffi::{MarkedRate, RateFields};
use crate::refusal::{Refusal, accepted};

/// A list of rates: mark 1 and the number, or 0 and 0.
#[derive(Clone, Debug, PartialEq, Eq)]
pub(crate) struct Marked {
    pub(crate) numbers: Vec<u64>,
    pub(crate) marks: Vec<u8>,
}

impl Marked {
    /// So many missing rates.
    pub(crate) fn missing(length: usize) -> Marked {
        Marked {
            numbers: vec![0; length],
            marks: vec![0; length],
        }
    }

    pub(crate) fn of(rates: &[Option<u64>]) -> Marked {
        Marked {
            numbers: rates.iter().map(|rate| rate.unwrap_or(0)).collect(),
            marks: rates.iter().map(|rate| u8::from(rate.is_some())).collect(),
        }
    }

    pub(crate) fn rates(&self) -> Vec<Option<u64>> {
        let marked = self.numbers.iter().zip(&self.marks);
        marked
            .map(|(&number, &mark)| rate_of(mark, number))
            .collect()
    }
}

pub(crate) fn rate_of(mark: u8, number: u64) -> Option<u64> {
    (mark == 1).then_some(number)
}

impl From<Option<u64>> for MarkedRate {
    fn from(rate: Option<u64>) -> MarkedRate {
        MarkedRate {
            mark: u8::from(rate.is_some()),
            rate: rate.unwrap_or(0),
        }
    }
}

impl From<MarkedRate> for Option<u64> {
    fn from(marked: MarkedRate) -> Option<u64> {
        rate_of(marked.mark, marked.rate)
    }
}

/// A rate, none, or a refusal.
pub(crate) fn answer(fields: RateFields) -> Result<Option<u64>, Refusal> {
    accepted(fields.refusal)?;
    Ok(rate_of(fields.mark, fields.rate))
}
