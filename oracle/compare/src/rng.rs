//! A generator of pseudo-random words: xoshiro256**, with its state filled by splitmix64.

pub struct Rng([u64; 4]);

fn splitmix64(state: &mut u64) -> u64 {
    *state = state.wrapping_add(0x9E37_79B9_7F4A_7C15);
    let z = (*state ^ (*state >> 30)).wrapping_mul(0xBF58_476D_1CE4_E5B9);
    let z = (z ^ (z >> 27)).wrapping_mul(0x94D0_49BB_1331_11EB);
    z ^ (z >> 31)
}

impl Rng {
    /// A stream of its own for each seed and label, so that one job's inputs do not depend on
    /// which others run.
    pub fn new(seed: u64, label: &str) -> Rng {
        let mut state = seed;
        for byte in label.bytes() {
            state = splitmix64(&mut state) ^ u64::from(byte);
        }
        Rng(std::array::from_fn(|_| splitmix64(&mut state)))
    }

    /// 64 random bits.
    pub fn word(&mut self) -> u64 {
        let s = &mut self.0;
        let result = s[1].wrapping_mul(5).rotate_left(7).wrapping_mul(9);
        let t = s[1] << 17;
        s[2] ^= s[0];
        s[3] ^= s[1];
        s[1] ^= s[2];
        s[0] ^= s[3];
        s[2] ^= t;
        s[3] = s[3].rotate_left(45);
        result
    }

    /// A number below `bound`, which is not 0.
    pub fn below(&mut self, bound: u64) -> u64 {
        ((u128::from(self.word()) * u128::from(bound)) >> 64) as u64
    }

    /// A number of `bits` binary digits at most (64 at most).
    pub fn of_bits(&mut self, bits: u32) -> u64 {
        self.word().checked_shr(64 - bits).unwrap_or(0)
    }

    /// A number of a random bit length, 0 to 64.
    pub fn of_any_length(&mut self) -> u64 {
        let bits = self.below(65) as u32;
        self.of_bits(bits)
    }

    /// Any f64: a random bit pattern.
    pub fn any_f64(&mut self) -> f64 {
        f64::from_bits(self.word())
    }

    /// A random f64 of either sign, its size from 2^`low` to below 2^`high`, with exponents equally
    /// likely (-1022 to 1024).
    pub fn f64_of_exponent(&mut self, low: i64, high: i64) -> f64 {
        let exponent = low + self.below((high - low) as u64) as i64;
        let sign = self.word() & (1 << 63);
        f64::from_bits(sign | ((exponent + 1023) as u64) << 52 | self.of_bits(52))
    }

    /// A number from 0 to below 1.
    pub fn fraction(&mut self) -> f64 {
        self.of_bits(53) as f64 / (1_u64 << 53) as f64
    }

    pub fn pick<T: Copy>(&mut self, from: &[T]) -> T {
        from[self.below(from.len() as u64) as usize]
    }
}

#[cfg(test)]
mod tests {
    use super::*;

    #[test]
    fn streams_repeat_and_differ_by_label() {
        let draw = |seed, label| Rng::new(seed, label).word();
        assert_eq!(draw(1, "a"), draw(1, "a"));
        assert_ne!(draw(1, "a"), draw(1, "b"));
        assert_ne!(draw(1, "a"), draw(2, "a"));
    }

    #[test]
    fn numbers_stay_in_range() {
        let mut rng = Rng::new(1, "range");
        for _ in 0..10_000 {
            assert!(rng.below(7) < 7);
            assert!(rng.of_bits(5) < 32);
            assert_eq!(rng.of_bits(0), 0);
            let x = rng.f64_of_exponent(-3, 4).abs();
            assert!((0.125..16.0).contains(&x));
            assert!((0.0..1.0).contains(&rng.fraction()));
        }
    }
}
