//! The stage float: rounding, conversion, smaller and larger, beside the Rust's own calls.

use judge::edges;
use judge::random::Random;

use crate::lent::Lent;
use crate::ours::{self, Ours};
use crate::tally::{Tally, Value};

/// Random cases of each function at scale 1.
const CASES: u64 = 200_000;

/// What the Rust does to write a sample.
pub fn round_to_u8(value: f32) -> u8 {
    value.round().clamp(0.0, 255.0) as u8
}

type Unary<A, B> = Ours<unsafe extern "C" fn(A) -> B>;
type Binary<A> = Ours<unsafe extern "C" fn(A, A) -> A>;

/// Both sides' answers to each input. A function of numbers alone asks nothing of its caller.
fn unary<A: Value, B: Value>(tally: &mut Tally, ours: Unary<A, B>, rust: fn(A) -> B, inputs: &[A]) {
    let Some(function) = ours.function else {
        tally.missing.push(ours.name);
        return;
    };
    for &input in inputs {
        let (mine, theirs) = (unsafe { function(input) }, rust(input));
        tally.count(mine.same(theirs), || {
            let answers = format!("ours {}, Rust {}", mine.show(), theirs.show());
            format!("{} {}: {answers}", ours.name, input.show())
        });
    }
}

/// The samples of many values at once, and those left alone where there are more or fewer of them.
fn round_all(tally: &mut Tally, random: &mut Random, values: &[f32]) {
    let Some(ours) = ours::vk_round_all_to_u8.function else {
        tally.missing.push(ours::vk_round_all_to_u8.name);
        return;
    };
    for length in (0..=70).chain([values.len()]) {
        let from = &values[values.len() - length..];
        for room in [length.saturating_sub(1), length, length + 1] {
            let mut lent = Lent::new(random, room);
            let mut expected = lent.original();
            if room == length {
                expected = from.iter().map(|&value| round_to_u8(value)).collect();
            }
            let to = lent.lend();
            unsafe { ours(from.as_ptr(), from.len(), to.as_mut_ptr(), to.len()) };
            tally.count(lent.is(&expected), || {
                format!("vk_round_all_to_u8, the last {length} values into {room} samples")
            });
        }
    }
}

/// A function of two numbers. Of two zeros with different signs the Rust may give either.
fn binary<A: Value + Into<f64>>(
    tally: &mut Tally,
    ours: Binary<A>,
    rust: fn(A, A) -> A,
    inputs: &[(A, A)],
) {
    let Some(function) = ours.function else {
        tally.missing.push(ours.name);
        return;
    };
    for &(a, b) in inputs {
        let (mine, theirs) = (unsafe { function(a, b) }, rust(a, b));
        let zeros = [a, b, mine].iter().all(|&value| value.into() == 0.0);
        tally.count(zeros || mine.same(theirs), || {
            let answers = format!("ours {}, Rust {}", mine.show(), theirs.show());
            format!("{} {} {}: {answers}", ours.name, a.show(), b.show())
        });
    }
}

/// A single: any pattern, one near a half, one from -2 to 2, or an eighth.
fn chance_single(random: &mut Random) -> f32 {
    match random.below(4) {
        0 => f32::from_bits(random.next_u32()),
        1 => {
            let half = random.below(1 << 24) as f32 / 2.0;
            let bits = (half.to_bits() + random.below(3) as u32).saturating_sub(1);
            f32::from_bits(bits | (random.next_u32() & 1 << 31))
        }
        2 => random.next_u32() as i32 as f32 / 1_073_741_824.0,
        _ => (random.below(8_192) as f32 - 4_096.0) / 8.0,
    }
}

/// A double: any pattern, one near a half, one near a single or a tie of two, or one near the ends of i64.
fn chance_double(random: &mut Random) -> f64 {
    let sign = random.next_u64() & 1 << 63;
    let bits = match random.below(4) {
        0 => return f64::from_bits(random.next_u64()),
        1 => (random.below(1 << 54) as f64 / 2.0).to_bits(),
        2 => {
            let single = f64::from(f32::from_bits(random.next_u32() & 0x7fff_ffff)).to_bits();
            single + (random.below(2) << 28)
        }
        _ => (1_021 + random.below(66)) << 52 | random.below(1 << 52),
    };
    f64::from_bits((bits + random.below(3)).saturating_sub(1) | sign)
}

fn singles(random: &mut Random, scale: u64) -> Vec<f32> {
    let edges = edges::samples().into_iter().map(f32::from_bits);
    let chance = (0..scale * CASES).map(|_| chance_single(random));
    edges.chain(chance).collect()
}

fn doubles(random: &mut Random, scale: u64) -> Vec<f64> {
    let edges = edges::doubles().into_iter().chain(edges::narrowing());
    let chance = (0..scale * CASES).map(|_| chance_double(random));
    edges.map(f64::from_bits).chain(chance).collect()
}

/// The special values and some inputs with each other, neighbours in the list, and each with itself.
fn pairs<A: Copy>(inputs: &[A], special: &[A]) -> Vec<(A, A)> {
    let some = inputs.iter().step_by(inputs.len() / 300 + 1);
    let few: Vec<A> = special.iter().chain(some).copied().collect();
    let crossed = few.iter().flat_map(|&a| few.iter().map(move |&b| (a, b)));
    let neighbours = inputs.windows(2).map(|pair| (pair[0], pair[1]));
    let same = inputs.iter().map(|&a| (a, a));
    crossed.chain(neighbours).chain(same).collect()
}

/// Zeros, ones, infinities, and not-a-numbers: quiet, signalling, negative.
const SPECIAL_SINGLES: [u32; 9] = [
    0,
    1 << 31,
    0x3f80_0000,
    0xbf80_0000,
    0x7f80_0000,
    0xff80_0000,
    0x7fc0_0000,
    0x7f80_0001,
    0xffc0_0000,
];
const SPECIAL_DOUBLES: [u64; 9] = [
    0,
    1 << 63,
    0x3ff0_0000_0000_0000,
    0xbff0_0000_0000_0000,
    0x7ff0_0000_0000_0000,
    0xfff0_0000_0000_0000,
    0x7ff8_0000_0000_0000,
    0x7ff0_0000_0000_0001,
    0xfff8_0000_0000_0000,
];

pub fn compare(random: &mut Random, scale: u64) -> Tally {
    let singles = singles(random, scale);
    let doubles = doubles(random, scale);
    let words: Vec<u32> = singles.iter().map(|single| single.to_bits()).collect();

    let in_unit = |value| (-1.0..=1.0).contains(&value);
    let floor = |value: f64| value.floor() as i64;
    let ceil = |value: f64| value.ceil() as i64;

    let mut tally = Tally::default();
    unary(&mut tally, ours::vk_round_f32, f32::round, &singles);
    unary(&mut tally, ours::vk_floor_f32, f32::floor, &singles);
    unary(&mut tally, ours::vk_round_to_u8, round_to_u8, &singles);
    round_all(&mut tally, random, &singles);
    unary(&mut tally, ours::vk_f32_from_bits, f32::from_bits, &words);
    unary(&mut tally, ours::vk_in_unit, in_unit, &singles);
    unary(&mut tally, ours::vk_floor_f64_to_i64, floor, &doubles);
    unary(&mut tally, ours::vk_ceil_f64_to_i64, ceil, &doubles);
    unary(&mut tally, ours::vk_abs_f64, f64::abs, &doubles);
    unary(&mut tally, ours::vk_narrow_f64, |value| value as f32, &doubles);

    let single_pairs = pairs(&singles, &SPECIAL_SINGLES.map(f32::from_bits));
    binary(&mut tally, ours::vk_min_f32, f32::min, &single_pairs);
    let double_pairs = pairs(&doubles, &SPECIAL_DOUBLES.map(f64::from_bits));
    binary(&mut tally, ours::vk_max_f64, f64::max, &double_pairs);
    tally
}
