//! Every single, and more than 10^8 doubles: minutes of work, outside the gate.

use judge::edges;
use judge::random::Random;

use crate::float::round_to_u8;
use crate::ours::{self, Ours};
use crate::tally::{Tally, Value};

/// Doubles by chance for each sign and exponent.
const FRACTIONS: u64 = 24_000;
/// Doubles by chance altogether.
const PATTERNS: u64 = 20_000_000;

fn every_single<B: Value>(
    total: &mut Tally,
    name: &str,
    ours: Ours<unsafe extern "C" fn(f32) -> B>,
    rust: fn(f32) -> B,
) {
    let mut tally = Tally::default();
    if let Some(ours) = ours.function {
        for bits in 0..=u32::MAX {
            let value = f32::from_bits(bits);
            let (mine, theirs) = (unsafe { ours(value) }, rust(value));
            tally.count(mine.same(theirs), || {
                format!("{bits:08x}: ours {}, Rust {}", mine.show(), theirs.show())
            });
        }
    }
    tally.print(name);
    total.add(&tally);
}

/// A fraction that is a tie of narrowing, or beside one, for half of the cases; else any.
fn fraction(random: &mut Random, exponent: u64) -> u64 {
    let fraction = random.below(1 << 52);
    if random.below(2) == 0 {
        return fraction;
    }
    // Narrowing drops 29 bits, and one more for each step below the smallest normal single, 2^-126.
    let dropped = 29 + 897u64.saturating_sub(exponent).min(23);
    let tie = fraction >> dropped << dropped | 1 << (dropped - 1);
    (tie + random.below(3)).saturating_sub(1) & ((1 << 52) - 1)
}

/// Hands over the edges, many of each sign and exponent, and many of all.
fn many_doubles(mut take: impl FnMut(f64)) {
    let mut random = Random::new(1);
    for bits in edges::doubles().into_iter().chain(edges::narrowing()) {
        take(f64::from_bits(bits));
    }
    for upper in 0..4_096 {
        for _ in 0..FRACTIONS {
            take(f64::from_bits(upper << 52 | fraction(&mut random, upper & 2_047)));
        }
    }
    for _ in 0..PATTERNS {
        take(f64::from_bits(random.next_u64()));
    }
}

fn doubles<B: Value>(
    total: &mut Tally,
    name: &str,
    ours: Ours<unsafe extern "C" fn(f64) -> B>,
    rust: fn(f64) -> B,
) {
    let mut tally = Tally::default();
    if let Some(ours) = ours.function {
        many_doubles(|value| {
            let (mine, theirs) = (unsafe { ours(value) }, rust(value));
            tally.count(mine.same(theirs), || {
                format!("{}: ours {}, Rust {}", value.show(), mine.show(), theirs.show())
            });
        });
    }
    tally.print(name);
    total.add(&tally);
}

pub fn compare() -> Tally {
    let mut total = Tally::default();
    every_single(&mut total, "round", ours::vk_round_f32, f32::round);
    every_single(&mut total, "floor", ours::vk_floor_f32, f32::floor);
    every_single(&mut total, "round to a sample", ours::vk_round_to_u8, round_to_u8);
    doubles(&mut total, "narrow", ours::vk_narrow_f64, |value| value as f32);
    doubles(&mut total, "floor to i64", ours::vk_floor_f64_to_i64, |value| value.floor() as i64);
    doubles(&mut total, "ceiling to i64", ours::vk_ceil_f64_to_i64, |value| value.ceil() as i64);
    total
}
