//! The values at which functions on words and floats change their behaviour.

use crate::words::{of_rank, rank};

/// 0, each 2^k with its two neighbours, 2^64 - 2 and 2^64 - 1.
pub fn boundary_words() -> Vec<u64> {
    let mut out: Vec<u64> = (0..64)
        .flat_map(|k| around_word(1 << k, 1))
        .chain([0, u64::MAX - 1, u64::MAX])
        .collect();
    out.sort_unstable();
    out.dedup();
    out
}

/// A short list, for functions of several words.
pub fn corner_words() -> Vec<u64> {
    let mut out = vec![0, 1, 2, 3, 10, u64::MAX - 2, u64::MAX - 1, u64::MAX];
    for k in [32, 50, 53, 63] {
        out.extend(around_word(1 << k, 1));
    }
    out
}

/// The words at most `reach` away from `word`.
pub fn around_word(word: u64, reach: u64) -> impl Iterator<Item = u64> {
    word.saturating_sub(reach)..=word.saturating_add(reach)
}

/// Zeros, infinities, NaNs of either sign and kind, the ends of the subnormal and the normal
/// numbers, and the places where rounding and the cast to u64 change: of either sign.
pub fn special_floats() -> Vec<f64> {
    let positive = [
        0.0,
        of_rank(1),
        of_rank(rank(f64::MIN_POSITIVE) - 1),
        f64::MIN_POSITIVE,
        0.5_f64.next_down(),
        0.5,
        0.5_f64.next_up(),
        1.0_f64.next_down(),
        1.0,
        1.0_f64.next_up(),
        1.5,
        2.5,
        2.5_f64.next_down(),
        power(52) - 0.5,
        power(52),
        power(52) + 1.0,
        power(53) - 1.0,
        power(53),
        power(53) + 2.0,
        power(63).next_down(),
        power(63),
        power(63).next_up(),
        power(64).next_down(),
        power(64),
        power(64).next_up(),
        f64::MAX,
        f64::INFINITY,
        // A quiet and a signalling NaN.
        f64::from_bits(0x7FF8_0000_0000_0000),
        f64::from_bits(0x7FF0_0000_0000_0001),
    ];
    both_signs(positive).collect()
}

/// Each power of two that is an f64, with `reach` neighbours on either side, of either sign.
pub fn powers_around(reach: i64) -> Vec<f64> {
    let powers = (-1074..=1023).flat_map(move |k| around_float(power(k), reach));
    both_signs(powers).collect()
}

/// The floats at most `reach` ranks away from `x`.
pub fn around_float(x: f64, reach: i64) -> impl Iterator<Item = f64> {
    (rank(x) - reach..=rank(x) + reach).map(of_rank)
}

pub fn both_signs(values: impl IntoIterator<Item = f64>) -> impl Iterator<Item = f64> {
    values.into_iter().flat_map(|x| [x, -x])
}

/// 2^k, for k from -1074 to 1023.
pub fn power(k: i32) -> f64 {
    if k < -1022 {
        f64::from_bits(1 << (k + 1074))
    } else {
        f64::from_bits(((k + 1023) as u64) << 52)
    }
}

/// All pairs.
pub fn pairs<A: Copy, B: Copy>(first: &[A], second: &[B]) -> Vec<(A, B)> {
    let with = |a: A| second.iter().map(move |b| (a, *b));
    first.iter().flat_map(|a| with(*a)).collect()
}

/// All triples.
pub fn triples<A: Copy, B: Copy, C: Copy>(
    first: &[A],
    second: &[B],
    third: &[C],
) -> Vec<(A, B, C)> {
    let nested = pairs(&pairs(first, second), third);
    nested.into_iter().map(|((a, b), c)| (a, b, c)).collect()
}

#[cfg(test)]
mod tests {
    use super::*;

    #[test]
    fn powers_of_two() {
        assert_eq!(power(-1074), 5e-324);
        assert_eq!(power(-1022), f64::MIN_POSITIVE);
        assert_eq!(power(0), 1.0);
        assert_eq!(power(64), 18_446_744_073_709_551_616.0);
        assert_eq!(power(1023) * 2.0, f64::INFINITY);
    }

    #[test]
    fn boundary_words_hold_the_named_ones() {
        let words = boundary_words();
        let named = [
            0,
            1,
            1 << 50,
            (1 << 53) - 1,
            1 << 53,
            (1 << 53) + 1,
            1 << 63,
            u64::MAX,
        ];
        assert!(named.iter().all(|word| words.contains(word)));
    }
}
