//! Floats around every edge of rounding, of conversion and of the formats themselves.
//!
//! Each list is in rising order of its bit patterns and holds a pattern once, with both signs.

use std::collections::BTreeSet;

use crate::random::Random;

/// Patterns of a format whose sign is the bit `sign`.
struct Patterns {
    sign: u64,
    found: BTreeSet<u64>,
}

impl Patterns {
    fn new(sign: u64) -> Patterns {
        Patterns { sign, found: BTreeSet::new() }
    }

    fn both_signs(&mut self, bits: u64) {
        self.found.insert(bits | self.sign);
        self.found.insert(bits & !self.sign);
    }

    /// A number and its two neighbours.
    fn near(&mut self, bits: u64) {
        for neighbour in bits.saturating_sub(1)..=bits + 1 {
            self.both_signs(neighbour);
        }
    }

    fn chance(&mut self, count: usize) {
        let mut random = Random::new(1);
        for _ in 0..count {
            let bits = random.next_u64() >> (63 - self.sign.trailing_zeros());
            self.found.insert(bits);
        }
    }

    /// The infinities and not-a-numbers: quiet, signalling, with the least and the largest payload.
    fn not_finite(&mut self, infinity: u64, quiet: u64) {
        for payload in [0, 1, 2, quiet - 1, quiet, quiet | 1, 2 * quiet - 1] {
            self.both_signs(infinity | payload);
        }
    }
}

/// Zero and one half to 20 and one half, whole numbers between, and halves beside powers of two.
fn numbers(largest_power: i32) -> impl Iterator<Item = f64> {
    let small = (0..=41).map(|halves| f64::from(halves) / 2.0);
    let large = (1..=largest_power).flat_map(|power| {
        let number = 2f64.powi(power);
        [number - 0.5, number, number + 0.5]
    });
    small.chain(large)
}

/// Singles: halves and whole numbers to beyond 2^24, where no fraction is left, and to the format's ends.
pub fn singles() -> Vec<u32> {
    let mut patterns = Patterns::new(1 << 31);
    for number in numbers(24) {
        patterns.near((number as f32).to_bits().into());
    }
    for power in (-26..0).chain(25..35).chain([-126, 62, 63, 64, 127]) {
        patterns.near(2f32.powi(power).to_bits().into());
    }
    // The smallest and the middle subnormal, and the largest number.
    for bits in [1, 1 << 22, f32::MAX.to_bits()] {
        patterns.near(bits.into());
    }
    patterns.not_finite(0x7f80_0000, 0x0040_0000);
    patterns.chance(200);
    patterns.found.into_iter().map(|bits| bits as u32).collect()
}

/// Singles, with each half between two sample values.
pub fn samples() -> Vec<u32> {
    let mut patterns = Patterns::new(1 << 31);
    patterns.found.extend(singles().into_iter().map(u64::from));
    for value in 0..=256 {
        patterns.near((value as f32 + 0.5).to_bits().into());
    }
    patterns.found.into_iter().map(|bits| bits as u32).collect()
}

/// Doubles: halves and whole numbers to beyond 2^53, the ends of i64 and of the format.
pub fn doubles() -> Vec<u64> {
    let mut patterns = Patterns::new(1 << 63);
    for number in numbers(54) {
        patterns.near(number.to_bits());
    }
    for power in (-3..0).chain(55..66).chain([-1022, 1023]) {
        patterns.near(2f64.powi(power).to_bits());
    }
    for bits in [1, 1 << 51, f64::MAX.to_bits()] {
        patterns.near(bits);
    }
    patterns.not_finite(0x7ff0_0000_0000_0000, 0x0008_0000_0000_0000);
    patterns.chance(200);
    patterns.found.into_iter().collect()
}

/// Doubles beside singles and beside the ties between two singles, subnormal and largest ones included.
pub fn narrowing() -> Vec<u64> {
    let mut patterns = Patterns::new(1 << 63);
    let fractions = [0, 1, 2, 0x2a_aaaa, 0x55_5555, 0x7f_fffe, 0x7f_ffff];
    for exponent in (0..=3).chain((7..=250).step_by(15)).chain(252..=254) {
        for fraction in fractions {
            let single = exponent << 23 | fraction;
            let (low, high) = (widened(single), widened(single + 1));
            patterns.near(low.to_bits());
            patterns.near(f64::midpoint(low, high).to_bits());
        }
    }
    for power in [-1022, -152, -151, 128, 1023] {
        patterns.near(2f64.powi(power).to_bits());
    }
    for bits in [1, f64::MAX.to_bits()] {
        patterns.near(bits);
    }
    patterns.not_finite(0x7ff0_0000_0000_0000, 0x0008_0000_0000_0000);
    patterns.not_finite(0x7ff0_0000_0000_0000, 0x0000_0000_1000_0000);
    patterns.chance(200);
    patterns.found.into_iter().collect()
}

/// The double of a single's pattern, where infinity's stands for the number that would come next, 2^128.
fn widened(single: u32) -> f64 {
    if single == f32::INFINITY.to_bits() { 2f64.powi(128) } else { f32::from_bits(single).into() }
}
