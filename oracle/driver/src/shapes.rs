//! Pictures for writing and reading: their sides, and what they show.

use judge::picture::{self, KINDS, Kind, Picture, SATURATED};
use judge::random::Random;

/// Sides around every boundary but the largest, each with each.
const EDGES: [usize; 12] = [0, 1, 2, 7, 8, 9, 255, 256, 257, 511, 512, 513];
/// Sides around the largest, each with each of the others.
const LONG: [usize; 3] = [8_191, 8_192, 8_193];
/// Two large pictures, and the largest.
const LARGE: [(usize, usize, usize); 3] = [(2_503, 3_001, 3), (4_096, 4_096, 4), (8_192, 8_192, 3)];
/// Pictures with a long prime side and a shorter one, at scale 1.
const PRIMES: u64 = 48;
/// Pictures of random sides at scale 1, and how much longer than the shortest those are at most.
const RANDOM: u64 = 2_600;
const MORE: u64 = 189;

fn is_prime(number: usize) -> bool {
    (2..).take_while(|divisor| divisor * divisor <= number).all(|divisor| number % divisor != 0)
}

/// A prime from 512 up to but not `end`.
fn prime(random: &mut Random, end: u64) -> usize {
    loop {
        let number = 512 + random.below(end - 512) as usize;
        if is_prime(number) {
            return number;
        }
    }
}

/// The shapes in turn; all follow from the random numbers.
pub fn shapes(random: &mut Random, scale: u64) -> Vec<Picture> {
    let pairs = EDGES.iter().flat_map(|&width| EDGES.map(|height| (width, height)));
    let mut shapes: Vec<(usize, usize, usize)> =
        pairs.flat_map(|(width, height)| [(width, height, 3), (width, height, 4)]).collect();
    for (case, long) in LONG.into_iter().enumerate() {
        let other = |(at, short)| if (case + at) % 2 == 0 { (long, short) } else { (short, long) };
        let channels = |at| 3 + (case + at / 2) % 2;
        let turned = EDGES.into_iter().enumerate();
        shapes.extend(turned.map(|(at, short)| {
            let (width, height) = other((at, short));
            (width, height, channels(at))
        }));
    }
    // The long sides that writing takes, both ways.
    shapes.extend([(8_191, 512, 4), (512, 8_191, 3), (8_192, 512, 3), (512, 8_192, 4)]);
    shapes.extend(LARGE);
    for _ in 0..scale * PRIMES {
        let (long, short) = (prime(random, 8_192), prime(random, 620));
        let channels = 3 + random.below(2) as usize;
        shapes.push(match random.below(2) {
            0 => (long, short, channels),
            _ => (short, long, channels),
        });
    }
    for _ in 0..scale * RANDOM {
        let mut side = || 512 + random.below(MORE) as usize;
        shapes.push((side(), side(), 3 + random.below(2) as usize));
    }
    let picture = |(width, height, channels)| Picture { width, height, channels };
    shapes.into_iter().map(picture).collect()
}

/// What the picture of a case shows: all kinds in turn, each with either number of channels and each side.
pub fn kind(case: usize) -> (&'static str, Kind) {
    let number = (case / 2 + case / (2 * EDGES.len())) % (KINDS.len() + SATURATED.len());
    *KINDS.get(number).unwrap_or_else(|| &SATURATED[number - KINDS.len()])
}

/// The samples of a picture, in places one too few or too many.
pub fn samples(random: &mut Random, case: usize, picture: Picture) -> Vec<u8> {
    let mut samples = picture::samples(kind(case).1, picture, random.next_u64());
    match random.below(64) {
        0 => drop(samples.pop()),
        1 => samples.push(7),
        _ => (),
    }
    samples
}

/// How many f32 to lend where `parts` of 65,536 and a picture's pixels are needed: in places one too few, else that and
/// some to spare.
pub fn room(random: &mut Random, picture: Picture, parts: usize) -> usize {
    if picture.width.max(picture.height) > 8_192 {
        return random.below(100) as usize;
    }
    let needed = parts * (65_536 + picture.width * picture.height);
    match random.below(16) {
        0 => needed - 1,
        1 => needed,
        _ => needed + random.below(70) as usize,
    }
}
