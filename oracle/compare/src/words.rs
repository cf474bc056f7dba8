//! Inputs and answers as lists of words: one way to compare, measure, shrink and print them all.

#[derive(Clone, Copy, Debug)]
pub enum Word {
    Int(u64),
    Float(f64),
    Bool(bool),
}

impl Word {
    pub fn bits(self) -> u64 {
        match self {
            Word::Int(n) => n,
            Word::Float(x) => x.to_bits(),
            Word::Bool(b) => u64::from(b),
        }
    }

    fn is_nan(self) -> bool {
        matches!(self, Word::Float(x) if x.is_nan())
    }

    /// By bits, but two NaNs are equal.
    fn same(self, other: Word) -> bool {
        self.bits() == other.bits() || (self.is_nan() && other.is_nan())
    }

    /// How many units in the last place two floats are apart, or the difference of two numbers.
    /// None between a NaN and a number.
    fn distance(self, other: Word) -> Option<u64> {
        match (self, other) {
            (Word::Float(x), Word::Float(y)) if x.is_nan() || y.is_nan() => {
                (x.is_nan() && y.is_nan()).then_some(0)
            }
            (Word::Float(x), Word::Float(y)) => Some(rank(x).abs_diff(rank(y))),
            _ => Some(self.bits().abs_diff(other.bits())),
        }
    }

    /// Orders inputs by how simple they are to read. A float is simple if its fraction is short, then
    /// if its exponent is near 0, then if it is positive.
    fn size(self) -> u128 {
        let Word::Float(x) = self else {
            return u128::from(self.bits());
        };
        if x.to_bits() == 0 {
            return 0;
        }
        let fraction = x.to_bits() << 12;
        let length = 64 - fraction.trailing_zeros().min(64);
        let exponent = (x.to_bits() >> 52 & 0x7FF).abs_diff(1023);
        let sign = x.to_bits() >> 63;
        1 + (u128::from(length) << 12 | u128::from(exponent << 1 | sign))
    }

    /// Hexadecimal and decimal.
    fn show(self) -> String {
        match self {
            Word::Int(n) => format!("0x{n:016X} ({n})"),
            Word::Float(x) => format!("0x{:016X} ({x:?})", x.to_bits()),
            Word::Bool(b) => b.to_string(),
        }
    }
}

/// The place of a float that is not NaN among all of them; the two zeros share one.
pub fn rank(x: f64) -> i64 {
    let bits = x.to_bits() as i64;
    if bits < 0 {
        i64::MIN.wrapping_sub(bits)
    } else {
        bits
    }
}

/// The float of a rank; +0 for 0.
pub fn of_rank(rank: i64) -> f64 {
    let bits = if rank < 0 {
        i64::MIN.wrapping_sub(rank)
    } else {
        rank
    };
    f64::from_bits(bits as u64)
}

pub fn same(a: &[Word], b: &[Word]) -> bool {
    a.len() == b.len() && a.iter().zip(b).all(|(a, b)| a.same(*b))
}

/// The largest distance between words of the same place, None if the two are not comparable.
pub fn distance(a: &[Word], b: &[Word]) -> Option<u64> {
    if a.len() != b.len() {
        return None;
    }
    a.iter()
        .zip(b)
        .try_fold(0, |largest, (a, b)| Some(a.distance(*b)?.max(largest)))
}

/// Two lists that differ in one word have different digests.
pub fn digest(words: impl Iterator<Item = u64>) -> u64 {
    let mix = |digest: u64, word: u64| {
        let mixed = (digest ^ word).wrapping_mul(0x9E37_79B9_7F4A_7C15);
        mixed.rotate_left(29)
    };
    words.fold(0, mix)
}

/// A shorter list is smaller, then one of smaller words.
pub fn size(words: &[Word]) -> u128 {
    words.iter().map(|word| (1 << 80) + word.size()).sum()
}

pub fn show(words: &[Word]) -> String {
    if words.is_empty() {
        return "none".to_string();
    }
    let shown: Vec<String> = words.iter().map(|word| word.show()).collect();
    shown.join(", ")
}

/// What can be written as a list of words.
pub trait Words {
    fn write(&self, out: &mut Vec<Word>);

    fn words(&self) -> Vec<Word> {
        let mut out = Vec::new();
        self.write(&mut out);
        out
    }
}

/// What a comparison can be given. `smaller` lists some inputs to try in place of this one when it
/// shows a difference; those that are not smaller are passed over.
pub trait Input: Words + Clone + 'static {
    fn smaller(&self) -> Vec<Self> {
        Vec::new()
    }
}

impl Words for u64 {
    fn write(&self, out: &mut Vec<Word>) {
        out.push(Word::Int(*self));
    }
}

impl Input for u64 {
    fn smaller(&self) -> Vec<u64> {
        let drops = (1..64).map(|shift| self >> shift);
        let drops = drops.take_while(|drop| *drop > 0);
        std::iter::once(0)
            .chain(drops.map(|drop| self - drop))
            .chain(self.checked_sub(1))
            .collect()
    }
}

impl Words for u32 {
    fn write(&self, out: &mut Vec<Word>) {
        out.push(Word::Int(u64::from(*self)));
    }
}

impl Input for u32 {
    fn smaller(&self) -> Vec<u32> {
        let wide = u64::from(*self).smaller();
        wide.into_iter().map(|n| n as u32).collect()
    }
}

impl Words for u8 {
    fn write(&self, out: &mut Vec<Word>) {
        out.push(Word::Int(u64::from(*self)));
    }
}

impl Input for u8 {
    fn smaller(&self) -> Vec<u8> {
        let wide = u64::from(*self).smaller();
        wide.into_iter().map(|n| n as u8).collect()
    }
}

impl Words for usize {
    fn write(&self, out: &mut Vec<Word>) {
        out.push(Word::Int(*self as u64));
    }
}

impl Words for f64 {
    fn write(&self, out: &mut Vec<Word>) {
        out.push(Word::Float(*self));
    }
}

impl Input for f64 {
    fn smaller(&self) -> Vec<f64> {
        let bits = self.to_bits();
        let shorter = (1..=52).rev().map(|cut| bits >> cut << cut);
        let mut out = vec![0.0, 1.0, self.trunc(), self / 2.0, self * 2.0, -self];
        out.extend(shorter.map(f64::from_bits));
        out
    }
}

impl Words for bool {
    fn write(&self, out: &mut Vec<Word>) {
        out.push(Word::Bool(*self));
    }
}

impl Input for bool {
    fn smaller(&self) -> Vec<bool> {
        self.then_some(false).into_iter().collect()
    }
}

/// The input of a constant.
impl Words for () {
    fn write(&self, _: &mut Vec<Word>) {}
}

impl Input for () {}

impl<A: Words, B: Words> Words for (A, B) {
    fn write(&self, out: &mut Vec<Word>) {
        self.0.write(out);
        self.1.write(out);
    }
}

impl<A: Input, B: Input> Input for (A, B) {
    fn smaller(&self) -> Vec<(A, B)> {
        let (a, b) = self;
        let first = a.smaller().into_iter().map(|a| (a, b.clone()));
        let second = b.smaller().into_iter().map(|b| (a.clone(), b));
        first.chain(second).collect()
    }
}

impl<A: Words, B: Words, C: Words> Words for (A, B, C) {
    fn write(&self, out: &mut Vec<Word>) {
        self.0.write(out);
        self.1.write(out);
        self.2.write(out);
    }
}

impl<A: Input, B: Input, C: Input> Input for (A, B, C) {
    fn smaller(&self) -> Vec<(A, B, C)> {
        let (a, b, c) = self;
        let nested = ((a.clone(), b.clone()), c.clone()).smaller();
        nested.into_iter().map(|((a, b), c)| (a, b, c)).collect()
    }
}

/// A mark, then the value if there is one.
impl<T: Words> Words for Option<T> {
    fn write(&self, out: &mut Vec<Word>) {
        out.push(Word::Bool(self.is_some()));
        if let Some(value) = self {
            value.write(out);
        }
    }
}

impl<T: Input> Input for Option<T> {
    fn smaller(&self) -> Vec<Option<T>> {
        let Some(value) = self else {
            return Vec::new();
        };
        let inner = value.smaller().into_iter().map(Some);
        std::iter::once(None).chain(inner).collect()
    }
}

/// The length, then the elements. A case of many calls is a list of calls, and its answer the list of
/// what each call returned or left.
impl<T: Words> Words for Vec<T> {
    fn write(&self, out: &mut Vec<Word>) {
        out.push(Word::Int(self.len() as u64));
        for element in self {
            element.write(out);
        }
    }
}

/// The list without a run of elements, from long runs to single elements.
pub fn without_runs<T: Clone>(list: &[T]) -> Vec<Vec<T>> {
    let mut out = Vec::new();
    let mut run = list.len();
    while run > 0 {
        for start in (0..list.len()).step_by(run) {
            let end = (start + run).min(list.len());
            out.push([&list[..start], &list[end..]].concat());
        }
        run /= 2;
    }
    out
}

impl<T: Input> Input for Vec<T> {
    /// Without a run of elements; then with one element smaller.
    fn smaller(&self) -> Vec<Vec<T>> {
        let mut out = without_runs(self);
        for (place, element) in self.iter().enumerate() {
            for less in element.smaller() {
                let mut list = self.clone();
                list[place] = less;
                out.push(list);
            }
        }
        out
    }
}

#[cfg(test)]
mod tests {
    use super::*;

    #[test]
    fn ranks_are_consecutive() {
        for x in [0.0, 1.0, -1.0, f64::MAX, f64::MIN_POSITIVE, -5e-324] {
            assert_eq!(rank(x.next_up()), rank(x) + 1);
            assert_eq!(rank(x.next_down()), rank(x) - 1);
            assert_eq!(of_rank(rank(x)), x);
        }
        assert_eq!(rank(-0.0), 0);
    }

    #[test]
    fn equality_is_by_bits_and_nans_are_equal() {
        let float = |x| vec![Word::Float(x)];
        assert!(same(&float(f64::NAN), &float(-f64::NAN)));
        assert!(!same(&float(0.0), &float(-0.0)));
        assert!(!same(&float(f64::NAN), &float(0.0)));
        assert!(!same(&vec![1_u64].words(), &vec![1_u64, 1].words()));
    }

    #[test]
    fn distance_counts_units_in_the_last_place() {
        let apart = |x: f64, y: f64| distance(&x.words(), &y.words());
        assert_eq!(apart(1.0, 1.0_f64.next_up()), Some(1));
        assert_eq!(apart(f64::MAX, f64::INFINITY), Some(1));
        assert_eq!(apart(5e-324, -5e-324), Some(2));
        assert_eq!(apart(f64::NAN, 1.0), None);
        assert_eq!(
            distance(&(3_u64, 9_u64).words(), &(5_u64, 8_u64).words()),
            Some(2)
        );
    }

    #[test]
    fn simple_inputs_are_smaller() {
        let smaller = |x: f64, y: f64| size(&x.words()) < size(&y.words());
        assert!(smaller(0.0, 1.0) && smaller(1.0, -1.0) && smaller(1.0, 1024.0));
        assert!(smaller(1024.0, 1.5) && smaller(1.5, 0.1));
        assert!(size(&vec![u64::MAX].words()) < size(&vec![0_u64, 0].words()));
    }
}
