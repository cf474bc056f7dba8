//! The refusals, and what each is for.

use std::error::Error;
use std::fmt;

/// Why a call was turned away. It has changed nothing.
#[derive(Clone, Copy, Debug, PartialEq, Eq, Hash)]
pub enum Refusal {
    /// 1: lists that belong together differ in length.
    Lengths,
    /// 2: a depth is less than the one before it.
    Depths,
    /// 3: more than 16 targets at an opening.
    Targets,
    /// 4: a connect when the held heights below it already fill the capacity, or a preload of an absent height into a
    /// full history.
    Full,
    /// 5: a capacity above 65,536. Other causes are lent lists that are too short, and the types here lend their own.
    Memory,
    /// 6: the median or a quantile of an empty list.
    Empty,
    /// 7: a quantile's confidence is NaN or outside 0 to 1.
    Confidence,
    /// 8: a mark other than 0 or 1. No call of this crate has one: a missing rate is `None`.
    Mark,
}

const ALL: [Refusal; 8] = [
    Refusal::Lengths,
    Refusal::Depths,
    Refusal::Targets,
    Refusal::Full,
    Refusal::Memory,
    Refusal::Empty,
    Refusal::Confidence,
    Refusal::Mark,
];

impl Refusal {
    /// The port's number, 1 to 8.
    #[must_use]
    pub fn number(self) -> u8 {
        self as u8 + 1
    }

    /// The refusal of a number, 1 to 8.
    #[must_use]
    pub fn from_number(number: u8) -> Option<Refusal> {
        ALL.into_iter().find(|refusal| refusal.number() == number)
    }
}

impl fmt::Display for Refusal {
    fn fmt(&self, f: &mut fmt::Formatter<'_>) -> fmt::Result {
        let why = match self {
            Refusal::Lengths => "lists that belong together differ in length",
            Refusal::Depths => "a depth is less than the one before it",
            Refusal::Targets => "more than 16 targets",
            Refusal::Full => "no room for another block",
            Refusal::Memory => "a capacity above 65536, or lent memory that is too short",
            Refusal::Empty => "the list is empty",
            Refusal::Confidence => "the confidence is not from 0 to 1",
            Refusal::Mark => "a mark that is neither 0 nor 1",
        };
        write!(f, "refusal {}: {why}", self.number())
    }
}

impl Error for Refusal {}

/// What a call of the port came back with: the number of a refusal, or 0.
pub(crate) fn accepted(number: u8) -> Result<(), Refusal> {
    if number == 0 {
        return Ok(());
    }
    Err(Refusal::from_number(number).expect("the port refuses with 1 to 8 alone"))
}
