//! Natural numbers of any length, and fractions of two of them: no rounding anywhere.

use std::cmp::Ordering;

/// Digits of 64 bits, the lowest first; the highest is not 0.
#[derive(Clone, PartialEq, Eq, Debug)]
pub struct Natural(Vec<u64>);

impl Natural {
    pub fn power_of_two(exponent: u32) -> Natural {
        Natural::from(1).shifted_up(exponent)
    }

    fn trimmed(mut digits: Vec<u64>) -> Natural {
        while digits.last() == Some(&0) {
            digits.pop();
        }
        Natural(digits)
    }

    fn digit(&self, place: usize) -> u64 {
        self.0.get(place).copied().unwrap_or(0)
    }

    /// The number of binary digits, 0 for 0.
    pub fn bits(&self) -> u32 {
        match self.0.last() {
            Some(top) => 64 * self.0.len() as u32 - top.leading_zeros(),
            None => 0,
        }
    }

    /// How often 2 divides it; 0 for 0.
    fn twos(&self) -> u32 {
        match self.0.iter().position(|digit| *digit != 0) {
            Some(place) => 64 * place as u32 + self.0[place].trailing_zeros(),
            None => 0,
        }
    }

    pub fn plus(&self, other: &Natural) -> Natural {
        let mut carry = 0;
        let mut digits = Vec::new();
        for place in 0..=self.0.len().max(other.0.len()) {
            let sum = u128::from(self.digit(place)) + u128::from(other.digit(place)) + carry;
            digits.push(sum as u64);
            carry = sum >> 64;
        }
        Natural::trimmed(digits)
    }

    /// The difference of the two, whichever is larger.
    pub fn apart(&self, other: &Natural) -> Natural {
        if *self < *other {
            return other.apart(self);
        }
        let mut borrow = false;
        let mut digits = Vec::new();
        for (place, digit) in self.0.iter().enumerate() {
            let (less, first) = digit.overflowing_sub(other.digit(place));
            let (less, second) = less.overflowing_sub(u64::from(borrow));
            digits.push(less);
            borrow = first || second;
        }
        Natural::trimmed(digits)
    }

    pub fn times(&self, other: &Natural) -> Natural {
        let mut digits = vec![0; self.0.len() + other.0.len()];
        for (i, a) in self.0.iter().enumerate() {
            let mut carry = 0;
            for (j, b) in other.0.iter().enumerate() {
                let sum = u128::from(*a) * u128::from(*b) + u128::from(digits[i + j]) + carry;
                digits[i + j] = sum as u64;
                carry = sum >> 64;
            }
            digits[i + other.0.len()] = carry as u64;
        }
        Natural::trimmed(digits)
    }

    fn shifted_up(&self, by: u32) -> Natural {
        let mut digits = vec![0; (by / 64) as usize];
        let by = by % 64;
        let mut carry = 0;
        for digit in &self.0 {
            digits.push(digit << by | carry);
            carry = digit.checked_shr(64 - by).unwrap_or(0);
        }
        digits.push(carry);
        Natural::trimmed(digits)
    }

    /// Without its `by` lowest binary digits.
    fn shifted_down(&self, by: u32) -> Natural {
        let kept = self.0.get((by / 64) as usize..).unwrap_or_default();
        let by = by % 64;
        let next = kept.iter().skip(1).chain(&[0]);
        let joined = kept
            .iter()
            .zip(next)
            .map(|(digit, next)| digit >> by | next.checked_shl(64 - by).unwrap_or(0));
        Natural::trimmed(joined.collect())
    }
}

impl From<u64> for Natural {
    fn from(n: u64) -> Natural {
        Natural::trimmed(vec![n])
    }
}

impl PartialOrd for Natural {
    fn partial_cmp(&self, other: &Natural) -> Option<Ordering> {
        Some(self.cmp(other))
    }
}

impl Ord for Natural {
    fn cmp(&self, other: &Natural) -> Ordering {
        let by_length = self.0.len().cmp(&other.0.len());
        by_length.then_with(|| self.0.iter().rev().cmp(other.0.iter().rev()))
    }
}

/// The denominator is not 0.
#[derive(Clone, Debug)]
pub struct Fraction {
    pub numerator: Natural,
    pub denominator: Natural,
}

impl Fraction {
    /// The same fraction without the powers of two that both have.
    pub fn new(numerator: Natural, denominator: Natural) -> Fraction {
        let mut twos = denominator.twos();
        if !numerator.0.is_empty() {
            twos = twos.min(numerator.twos());
        }
        Fraction {
            numerator: numerator.shifted_down(twos),
            denominator: denominator.shifted_down(twos),
        }
    }

    pub fn whole(n: u64) -> Fraction {
        Fraction::new(Natural::from(n), Natural::from(1))
    }

    /// A float that is finite and not below 0.
    pub fn of_f64(x: f64) -> Fraction {
        let exponent = (x.to_bits() >> 52 & 0x7FF) as u32;
        let digits = x.to_bits() & ((1 << 52) - 1);
        // digits × 2^(exponent - 1075), and of the smallest ones digits × 2^-1074.
        let (digits, exponent) = match exponent {
            0 => (digits, 1),
            _ => (digits | 1 << 52, exponent),
        };
        let digits = Natural::from(digits).shifted_up(exponent);
        Fraction::new(digits, Natural::power_of_two(1075))
    }

    /// v·a + (1-v)·b for a weight v from 0 to 1.
    pub fn blend(v: &Fraction, a: &Fraction, b: &Fraction) -> Fraction {
        let rest = v.denominator.apart(&v.numerator);
        let a_part = v.numerator.times(&a.numerator).times(&b.denominator);
        let b_part = rest.times(&b.numerator).times(&a.denominator);
        let denominators = a.denominator.times(&b.denominator);
        Fraction::new(a_part.plus(&b_part), v.denominator.times(&denominators))
    }

    /// How far a whole number is from it.
    pub fn distance(&self, n: u64) -> Fraction {
        let n = Natural::from(n).times(&self.denominator);
        Fraction::new(n.apart(&self.numerator), self.denominator.clone())
    }

    /// A float close to it, for printing.
    pub fn about(&self) -> f64 {
        let spare = self.denominator.bits().max(self.numerator.bits());
        let spare = spare.saturating_sub(64);
        let top = |n: &Natural| n.shifted_down(spare).digit(0) as f64;
        top(&self.numerator) / top(&self.denominator)
    }
}

impl PartialEq for Fraction {
    fn eq(&self, other: &Fraction) -> bool {
        self.cmp(other) == Ordering::Equal
    }
}

impl Eq for Fraction {}

impl PartialOrd for Fraction {
    fn partial_cmp(&self, other: &Fraction) -> Option<Ordering> {
        Some(self.cmp(other))
    }
}

impl Ord for Fraction {
    fn cmp(&self, other: &Fraction) -> Ordering {
        let mine = self.numerator.times(&other.denominator);
        mine.cmp(&other.numerator.times(&self.denominator))
    }
}

#[cfg(test)]
mod tests {
    use super::*;
    use crate::rng::Rng;

    fn natural(n: u128) -> Natural {
        Natural::trimmed(vec![n as u64, (n >> 64) as u64])
    }

    #[test]
    fn arithmetic_agrees_with_u128() {
        let mut rng = Rng::new(1, "naturals");
        for _ in 0..10_000 {
            let [a, b] = [(); 2].map(|_| u128::from(rng.of_any_length()));
            let [x, y] = [a, b].map(natural);
            assert_eq!(x.plus(&y), natural(a + b));
            assert_eq!(x.apart(&y), natural(a.abs_diff(b)));
            assert_eq!(x.times(&y), natural(a * b));
            assert_eq!(x.cmp(&y), a.cmp(&b));
            assert_eq!(x.bits(), 128 - a.leading_zeros());
            let by = rng.below(64) as u32;
            assert_eq!(x.shifted_up(by), natural(a << by));
            assert_eq!(x.times(&y).shifted_down(by), natural((a * b) >> by));
        }
    }

    #[test]
    fn long_numbers_keep_every_digit() {
        let mut rng = Rng::new(1, "long naturals");
        for _ in 0..1_000 {
            let [a, b, c] =
                [(); 3].map(|_| Natural::trimmed((0..5).map(|_| rng.of_any_length()).collect()));
            let sum_of_products = a.times(&c).plus(&b.times(&c));
            assert_eq!(a.plus(&b).times(&c), sum_of_products);
            assert_eq!(a.plus(&b).apart(&b), a);
            let by = rng.below(300) as u32;
            assert_eq!(a.shifted_up(by).shifted_down(by), a);
            assert_eq!(a.shifted_up(by), a.times(&Natural::power_of_two(by)));
        }
    }

    #[test]
    fn floats_are_read_exactly() {
        let half = Fraction::new(Natural::from(1), Natural::from(2));
        assert_eq!(Fraction::of_f64(0.5), half);
        assert_eq!(Fraction::of_f64(0.0), Fraction::whole(0));
        assert_eq!(Fraction::of_f64(1.0), Fraction::whole(1));
        let tenth = Fraction::new(
            Natural::from(3_602_879_701_896_397),
            Natural::power_of_two(55),
        );
        assert_eq!(Fraction::of_f64(0.1), tenth);
        let least = Fraction::new(Natural::from(1), Natural::power_of_two(1074));
        assert_eq!(Fraction::of_f64(5e-324), least);
        assert_eq!(Fraction::of_f64(2.0_f64.powi(-1022)).about(), 0.0);
        assert_eq!(Fraction::of_f64(0.1).about(), 0.1);
    }

    #[test]
    fn blends_and_distances() {
        let quarter = Fraction::of_f64(0.25);
        let blend = Fraction::blend(&quarter, &Fraction::whole(7), &Fraction::whole(2));
        assert_eq!(blend, Fraction::of_f64(3.25));
        assert_eq!(blend.distance(5), Fraction::of_f64(1.75));
        assert_eq!(blend.distance(1), Fraction::of_f64(2.25));
        assert!(blend < Fraction::whole(4) && blend > Fraction::whole(3));
    }
}
