//! Document 01's exact line, in fractions: the cases of the loop over depths and of the lookup, with
//! no rounding. Only the weights are floats, those of the Rust with the stand-ins, read as fractions.

use super::lists::{Loop, Rate};
use crate::exact::{Fraction, Natural};
use crate::words::{Word, Words};
use patched_mempool::fee_est as patched;
use std::sync::Mutex;

/// Of one target.
#[derive(Clone, Copy, PartialEq, Debug)]
pub struct Verdict {
    pub target: u32,
    /// Whether it has a quote, or a point of the line.
    pub answered: bool,
    /// The quote is less than 5/2 from the point.
    pub near: bool,
    /// The quote is not above a nearer target's.
    pub ordered: bool,
}

impl Words for Verdict {
    fn write(&self, out: &mut Vec<Word>) {
        (self.target, (self.answered, self.near, self.ordered)).write(out);
    }
}

/// What all verdicts of a run have seen: targets with a quote and a point, and the largest distance
/// between the two.
pub struct Seen {
    pub quotes: u64,
    pub largest: Option<Fraction>,
}

pub static SEEN: Mutex<Seen> = Mutex::new(Seen {
    quotes: 0,
    largest: None,
});

fn note(distance: Fraction) {
    let mut seen = SEEN.lock().expect("no verdict panics");
    seen.quotes += 1;
    if seen.largest.as_ref().is_none_or(|most| *most < distance) {
        seen.largest = Some(distance);
    }
}

/// What demand 3 asks of every target that has a point, and of those that have none.
pub fn expected(of: &Loop) -> Vec<Verdict> {
    let points = held_points(of);
    let verdict = |target| Verdict {
        target,
        answered: at_target(&of.depths, &points, target).is_some(),
        near: true,
        ordered: true,
    };
    of.targets().into_iter().map(verdict).collect()
}

/// What the quotes of the ascending targets are beside the line.
pub fn verdicts(of: &Loop, quotes: &[Rate]) -> Vec<Verdict> {
    let points = held_points(of);
    let mut nearer = None;
    let mut verdict = |(target, quote): (u32, &Rate)| {
        let point = at_target(&of.depths, &points, target);
        let ordered = match (nearer, quote) {
            (Some(nearer), Some(quote)) => *quote <= nearer,
            _ => true,
        };
        nearer = quote.or(nearer);
        let near = match (quote, point) {
            (Some(quote), Some(point)) => is_near(point.distance(*quote)),
            _ => true,
        };
        Verdict {
            target,
            answered: quote.is_some(),
            near,
            ordered,
        }
    };
    let targets = of.targets().into_iter();
    targets.zip(quotes).map(&mut verdict).collect()
}

fn is_near(distance: Fraction) -> bool {
    let near = distance < Fraction::new(Natural::from(5), Natural::from(2));
    note(distance);
    near
}

/// `flow_for_depth`, then `published_depth_rate`.
fn point_at(of: &Loop, place: usize) -> Option<Fraction> {
    let n = of.depths[place];
    let (frontier, hist) = (of.frontier.rate(place), of.history.rate(place));
    let flow = patched::flow_for_depth(of.projected.rate(place), frontier, n);
    let cold = hist.map(|h| h.max(frontier.unwrap_or(h)));
    let mut warm = warm_point(n, flow, hist);
    if n <= 1 && of.alpha.is_finite() && of.alpha > 0.0 {
        warm = warm.max(of.confirm.rate().map(Fraction::whole));
    }
    // A share that is not finite weighs 0.
    let share = match of.alpha.is_finite() {
        true => of.alpha.clamp(0.0, 1.0).abs(),
        false => 0.0,
    };
    match (cold.map(Fraction::whole), warm) {
        (Some(cold), Some(warm)) => Some(Fraction::blend(&Fraction::of_f64(share), &warm, &cold)),
        (None, warm) => warm.filter(|_| share >= 1.0),
        (cold, None) => cold,
    }
}

fn warm_point(n: u32, flow: Rate, hist: Rate) -> Option<Fraction> {
    let (flow, hist) = (flow.map(Fraction::whole), hist.map(Fraction::whole));
    match (flow, hist) {
        (Some(flow), Some(hist)) if n > 1 => {
            let weight = Fraction::of_f64(patched::blend_weight(n));
            Some(Fraction::blend(&weight, &flow, &hist))
        }
        (flow, hist) => flow.or(hist),
    }
}

/// Each depth takes the least fraction so far.
fn held_points(of: &Loop) -> Vec<Option<Fraction>> {
    let mut least: Option<Fraction> = None;
    let mut hold = |place| {
        let point = point_at(of, place);
        least = match (least.take(), point) {
            (Some(least), Some(point)) => Some(least.min(point)),
            (least, point) => least.or(point),
        };
        least.clone()
    };
    (0..of.depths.len()).map(&mut hold).collect()
}

/// The cases of `fee_at_target_sat_kvb`.
fn at_target(depths: &[u32], points: &[Option<Fraction>], target: u32) -> Option<Fraction> {
    let last_of = |points: &[Option<Fraction>]| points.iter().rev().flatten().next().cloned();
    let Some(place) = depths.iter().position(|depth| *depth >= target) else {
        return last_of(points);
    };
    if depths[place] == target {
        return points[place].clone();
    }
    let before = place.checked_sub(1)?;
    match (&points[before], &points[place]) {
        (Some(left), Some(right)) => {
            let (start, end) = (depths[before], depths[place]);
            let passed = Natural::from(u64::from(target - start));
            let weight = Fraction::new(passed, Natural::from(u64::from(end - start)));
            Some(Fraction::blend(&weight, right, left))
        }
        (Some(left), None) => Some(left.clone()),
        (None, _) => last_of(&points[..place]),
    }
}
