//! What the Rattle functions answer with in a struct of C, and lists that are lent to them.

use crate::words::{Word, Words};
use std::hint::black_box;

/// A rate or none, or a refusal: its number or 0, then 1 where a rate is there, then the rate or 0.
#[repr(C)]
#[derive(Clone, Copy, PartialEq, Debug)]
pub struct RateFields {
    pub refusal: u8,
    pub mark: u8,
    pub rate: u64,
}

impl RateFields {
    /// 0 refuses nothing, and then there is no rate.
    pub const fn refused(refusal: u8) -> RateFields {
        RateFields {
            refusal,
            mark: 0,
            rate: 0,
        }
    }
}

impl From<Option<u64>> for RateFields {
    fn from(rate: Option<u64>) -> RateFields {
        RateFields {
            refusal: 0,
            mark: u8::from(rate.is_some()),
            rate: rate.unwrap_or(0),
        }
    }
}

impl Words for RateFields {
    fn write(&self, out: &mut Vec<Word>) {
        (self.refusal, self.mark, self.rate).write(out);
    }
}

/// An answer, and whether the lent lists are as they were. A list that was written to adds a word,
/// which no answer of the Rust has.
pub struct Lent<A> {
    pub answer: A,
    pub kept: bool,
}

impl<A: Words> Words for Lent<A> {
    fn write(&self, out: &mut Vec<Word>) {
        self.answer.write(out);
        if !self.kept {
            out.push(Word::Bool(false));
        }
    }
}

impl<A> From<A> for Lent<A> {
    fn from(answer: A) -> Lent<A> {
        Lent { answer, kept: true }
    }
}

/// Lends copies of the lists.
pub fn lend<A, const N: usize>(
    lists: [&Vec<u64>; N],
    function: impl FnOnce(&[Vec<u64>; N]) -> A,
) -> Lent<A> {
    let copies = black_box(lists.map(Vec::clone));
    let answer = function(black_box(&copies));
    let kept = black_box(&copies).iter().eq(lists);
    Lent { answer, kept }
}

#[cfg(test)]
mod tests {
    use super::*;

    #[test]
    fn a_list_that_was_written_to_is_a_difference() {
        let list = vec![1, 2];
        let words = lend([&list], |_| 7_u64).words();
        assert!(crate::words::same(&words, &7_u64.words()));
        let changed = Lent {
            answer: 7_u64,
            kept: false,
        };
        assert!(!crate::words::same(&changed.words(), &words));
    }
}
