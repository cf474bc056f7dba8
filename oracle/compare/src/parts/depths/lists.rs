//! What the functions of part `depths` are given: rates that may be missing, loops over depths, lookups.

use super::draw::BOUND;
use crate::lent::RateFields;
use crate::words::{Input, Word, Words};

pub type Rate = Option<u64>;

/// A rate that may be missing: 1 and its number where it is there. A missing one that is an answer
/// has the number 0; of an argument the number under the mark 0 is not read.
#[repr(C)]
#[derive(Clone, Copy, PartialEq, Debug)]
pub struct MarkedRate {
    pub mark: u8,
    pub rate: u64,
}

impl MarkedRate {
    pub fn rate(&self) -> Rate {
        (self.mark == 1).then_some(self.rate)
    }
}

impl From<Rate> for MarkedRate {
    fn from(rate: Rate) -> MarkedRate {
        MarkedRate {
            mark: u8::from(rate.is_some()),
            rate: rate.unwrap_or(0),
        }
    }
}

impl Words for MarkedRate {
    fn write(&self, out: &mut Vec<Word>) {
        (self.mark, self.rate).write(out);
    }
}

impl Input for MarkedRate {
    fn smaller(&self) -> Vec<MarkedRate> {
        let all = (self.mark, self.rate).smaller().into_iter();
        all.map(|(mark, rate)| MarkedRate { mark, rate }).collect()
    }
}

/// Rates as numbers with marks.
#[derive(Clone, PartialEq, Debug)]
pub struct Marked {
    pub numbers: Vec<u64>,
    pub marks: Vec<u8>,
}

impl Marked {
    pub fn paired(&self) -> bool {
        self.numbers.len() == self.marks.len()
    }

    pub fn valid(&self) -> bool {
        self.marks.iter().all(|mark| *mark <= 1)
    }

    pub fn rate(&self, place: usize) -> Rate {
        (self.marks[place] == 1).then_some(self.numbers[place])
    }

    pub fn rates(&self) -> Vec<Rate> {
        (0..self.numbers.len())
            .map(|place| self.rate(place))
            .collect()
    }

    /// The rates, and what stands here where one is missing.
    pub fn over(&self, rates: &[Rate]) -> Marked {
        let numbers = rates.iter().zip(&self.numbers);
        Marked {
            numbers: numbers.map(|(rate, here)| rate.unwrap_or(*here)).collect(),
            marks: rates.iter().map(|rate| u8::from(rate.is_some())).collect(),
        }
    }

    pub fn of(rates: &[Rate]) -> Marked {
        Marked {
            numbers: vec![0; rates.len()],
            marks: Vec::new(),
        }
        .over(rates)
    }

    pub fn pairs(&self) -> Vec<(u64, u8)> {
        let numbers = self.numbers.iter().copied();
        numbers.zip(self.marks.iter().copied()).collect()
    }

    pub fn of_pairs(pairs: Vec<(u64, u8)>) -> Marked {
        let (numbers, marks) = pairs.into_iter().unzip();
        Marked { numbers, marks }
    }

    /// The refusal of one list of rates: 1 or 8 or none.
    pub fn refusal(&self) -> u8 {
        match (self.paired(), self.valid()) {
            (false, _) => 1,
            (true, false) => 8,
            (true, true) => 0,
        }
    }
}

impl Words for Marked {
    fn write(&self, out: &mut Vec<Word>) {
        self.numbers.write(out);
        self.marks.write(out);
    }
}

impl Input for Marked {
    /// A number keeps its mark where there are as many of both.
    fn smaller(&self) -> Vec<Marked> {
        if self.paired() {
            let all = self.pairs().smaller().into_iter();
            return all.map(Marked::of_pairs).collect();
        }
        let all = (self.numbers.clone(), self.marks.clone()).smaller();
        let all = all.into_iter();
        all.map(|(numbers, marks)| Marked { numbers, marks })
            .collect()
    }
}

/// What the loop over depths is given.
#[derive(Clone, PartialEq, Debug)]
pub struct Loop {
    pub depths: Vec<u32>,
    pub projected: Marked,
    pub frontier: Marked,
    pub history: Marked,
    pub confirm: MarkedRate,
    pub alpha: f64,
    pub out: Marked,
}

/// A depth, and the numbers with marks of the four lists.
type Row = (u32, ((u64, u8), (u64, u8)), ((u64, u8), (u64, u8)));

impl Loop {
    pub fn pairs(&self) -> [&Marked; 4] {
        [&self.projected, &self.frontier, &self.history, &self.out]
    }

    pub fn of_one_length(&self) -> bool {
        let length = self.depths.len();
        let has = |pair: &&Marked| pair.numbers.len() == length && pair.paired();
        self.pairs().iter().all(has)
    }

    /// 1, 8 or 2, in this order; the marks of the output are not read.
    pub fn refusal(&self) -> u8 {
        if !self.of_one_length() {
            return 1;
        }
        let inputs = [&self.projected, &self.frontier, &self.history];
        if !inputs.iter().all(|pair| pair.valid()) {
            return 8;
        }
        if self.depths.is_sorted() { 0 } else { 2 }
    }

    /// Demand 3: nothing to refuse, and every rate missing or at most 2^50.
    pub fn within_premises(&self) -> bool {
        let bounded = |rate: Rate| rate.is_none_or(|rate| rate <= BOUND);
        let pairs = [&self.projected, &self.frontier, &self.history];
        self.refusal() == 0
            && bounded(self.confirm.rate())
            && pairs
                .iter()
                .all(|pair| pair.rates().into_iter().all(bounded))
    }

    /// Each depth, what lies beside it and half way to the next, and the ends of the range.
    pub fn targets(&self) -> Vec<u32> {
        let mut targets = vec![0, 1, 2, u32::MAX];
        for depth in &self.depths {
            targets.extend([depth.saturating_sub(1), *depth, depth.saturating_add(1)]);
        }
        for pair in self.depths.windows(2) {
            targets.push(pair[0] + pair[1].saturating_sub(pair[0]) / 2);
        }
        targets.sort_unstable();
        targets.dedup();
        targets
    }

    fn rows(&self) -> Vec<Row> {
        let pair = |of: &Marked, i: usize| (of.numbers[i], of.marks[i]);
        let row = |i| {
            let first = (pair(&self.projected, i), pair(&self.frontier, i));
            let second = (pair(&self.history, i), pair(&self.out, i));
            (self.depths[i], first, second)
        };
        (0..self.depths.len()).map(row).collect()
    }

    fn with_rows(&self, rows: Vec<Row>) -> Loop {
        let column = |of: fn(&Row) -> (u64, u8)| Marked::of_pairs(rows.iter().map(of).collect());
        Loop {
            depths: rows.iter().map(|row| row.0).collect(),
            projected: column(|row| row.1.0),
            frontier: column(|row| row.1.1),
            history: column(|row| row.2.0),
            out: column(|row| row.2.1),
            ..*self
        }
    }
}

impl Words for Loop {
    fn write(&self, out: &mut Vec<Word>) {
        self.depths.write(out);
        for pair in self.pairs() {
            pair.write(out);
        }
        (self.confirm, self.alpha).write(out);
    }
}

impl Input for Loop {
    /// A depth keeps its rates where all lists are of one length.
    fn smaller(&self) -> Vec<Loop> {
        let all = (self.confirm, self.alpha).smaller().into_iter();
        let mut out: Vec<Loop> = all
            .map(|(confirm, alpha)| Loop {
                confirm,
                alpha,
                ..self.clone()
            })
            .collect();
        if self.of_one_length() {
            let rows = self.rows().smaller().into_iter();
            out.extend(rows.map(|rows| self.with_rows(rows)));
            return out;
        }
        let lists = (
            (self.depths.clone(), self.projected.clone()),
            (self.frontier.clone(), self.history.clone()),
            self.out.clone(),
        );
        let lists = lists.smaller().into_iter();
        out.extend(
            lists.map(|((depths, projected), (frontier, history), out)| Loop {
                depths,
                projected,
                frontier,
                history,
                out,
                ..*self
            }),
        );
        out
    }
}

/// What the lookup is given.
#[derive(Clone)]
pub struct Lookup {
    pub depths: Vec<u32>,
    pub rates: Marked,
    pub target: u32,
}

impl Lookup {
    /// What is decided before the Rust's cases: 1, then no rate, then 8, then 2.
    pub fn decided(&self) -> Option<RateFields> {
        let Lookup { depths, rates, .. } = self;
        if !rates.paired() {
            return Some(RateFields::refused(1));
        }
        if depths.is_empty() || depths.len() != rates.numbers.len() {
            return Some(None.into());
        }
        if !rates.valid() {
            return Some(RateFields::refused(8));
        }
        (!depths.is_sorted()).then_some(RateFields::refused(2))
    }
}

impl Words for Lookup {
    fn write(&self, out: &mut Vec<Word>) {
        self.target.write(out);
        self.depths.write(out);
        self.rates.write(out);
    }
}

impl Input for Lookup {
    /// A depth keeps its rate where there are as many of both.
    fn smaller(&self) -> Vec<Lookup> {
        let Lookup {
            depths,
            rates,
            target,
        } = self;
        if rates.paired() && depths.len() == rates.marks.len() {
            let rows = depths.iter().copied().zip(rates.pairs());
            let all = (rows.collect::<Vec<_>>(), *target).smaller().into_iter();
            return all
                .map(|(rows, target)| {
                    let (depths, pairs) = rows.into_iter().unzip();
                    Lookup {
                        depths,
                        rates: Marked::of_pairs(pairs),
                        target,
                    }
                })
                .collect();
        }
        let all = (depths.clone(), rates.clone(), *target).smaller();
        all.into_iter()
            .map(|(depths, rates, target)| Lookup {
                depths,
                rates,
                target,
            })
            .collect()
    }
}
