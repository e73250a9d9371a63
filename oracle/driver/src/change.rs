//! The stage change: a change of the plane put onto a picture's samples, with rows of the picture counted.

use judge::picture::{KINDS, Picture, samples};
use judge::random::Random;
use judge::stages;

use crate::ours;
use crate::tally::Tally;

/// The values of a plane.
const PLANE_LEN: usize = 256 * 256;
/// Bytes before and after the samples, which must stay as they are.
const GUARD: usize = 64;
/// What they are.
const WATCH: u8 = 0xa5;
/// Pictures of random sides at scale 1.
const RANDOM: u64 = 60;
/// How much longer than the plane's those are at most.
const MORE: u64 = 700;

type Change = unsafe extern "C" fn(*const f32, usize, usize, usize, usize, *mut u8, usize) -> bool;

/// Sides that are tried with each other, each pair with 3 and with 4 channels.
const SIDES: [usize; 9] = [256, 257, 307, 383, 511, 512, 513, 769, 1_021];

/// Sides at the upper edge, and two large pictures.
const LONG: [(usize, usize); 10] = [
    (8_191, 256),
    (8_192, 256),
    (256, 8_191),
    (256, 8_192),
    (8_192, 257),
    (257, 8_192),
    (4_099, 263),
    (263, 4_099),
    (2_503, 3_001),
    (8_192, 8_192),
];

/// A value of a change.
type Make = fn(&mut Random) -> f32;

/// Changes, by name. Their number and that of the pictures' kinds have no common factor: all meet.
const CHANGES: [(&str, Make); 13] = [
    ("small", small),
    ("a half", |_| 0.5),
    ("minus a half", |_| -0.5),
    ("three halves", |_| 1.5),
    ("minus three halves", |_| -1.5),
    ("halves", |random| (random.below(1_041) as f32 - 520.0) / 2.0),
    ("large", |random| (random.below(600_001) as f32 - 300_000.0) / 1_000.0),
    ("huge", |random| small(random) * 4e37),
    ("infinite", |random| rare(random, &[f32::INFINITY, f32::NEG_INFINITY])),
    ("not numbers", |random| rare(random, &[f32::NAN, -f32::NAN])),
    ("minus zero", |_| -0.0),
    ("tiny", |random| f32::from_bits(random.next_u32() & 0x807f_ffff)),
    ("any bits", |random| f32::from_bits(random.next_u32())),
];

/// Between -8 and 8.
fn small(random: &mut Random) -> f32 {
    (random.below(16_001) as f32 - 8_000.0) / 1_000.0
}

/// One of these now and then, among small values.
fn rare(random: &mut Random, values: &[f32]) -> f32 {
    if random.below(16) == 0 {
        values[random.below(values.len() as u64) as usize]
    } else {
        small(random)
    }
}

/// Ours, over samples that are watched on both sides.
fn lent(ours: Change, change: &[f32], picture: Picture, bytes: &[u8]) -> (bool, Vec<u8>) {
    let mut room = vec![WATCH; GUARD];
    room.extend_from_slice(bytes);
    room.resize(bytes.len() + 2 * GUARD, WATCH);
    let done = unsafe {
        let middle = room[GUARD..].as_mut_ptr();
        let Picture { width, height, channels } = picture;
        ours(change.as_ptr(), change.len(), width, height, channels, middle, bytes.len())
    };
    let untouched = |bytes: &[u8]| bytes.iter().all(|&byte| byte == WATCH);
    assert!(untouched(&room[..GUARD]) && untouched(&room[GUARD + bytes.len()..]), "{picture:?}");
    room.truncate(GUARD + bytes.len());
    (done, room.split_off(GUARD))
}

fn compare_picture(tally: &mut Tally, ours: Change, case: usize, picture: Picture, seed: u64) {
    let (kind_name, kind) = KINDS[case % KINDS.len()];
    let (name, make) = CHANGES[case % CHANGES.len()];
    let mut random = Random::new(seed);
    let change: Vec<f32> = (0..PLANE_LEN).map(|_| make(&mut random)).collect();
    let mut theirs = samples(kind, picture, seed);
    let (done, mine) = lent(ours, &change, picture, &theirs);
    tally.count(done, || format!("vk_change refuses {picture:?}"));
    stages::change(&mut theirs, picture.channels, picture.width, picture.height, &change);
    let length = picture.width * picture.channels;
    let rows = mine.chunks_exact(length).zip(theirs.chunks_exact(length));
    for (row, (mine, theirs)) in rows.enumerate() {
        tally.count(mine == theirs, || {
            format!("vk_change, {name} onto {kind_name} {picture:?} {seed}: row {row}")
        });
    }
}

/// What no picture or no change has is refused, and nothing is written.
fn compare_refused(tally: &mut Tally, ours: Change) {
    const SMALLEST: usize = 256 * 256 * 3;
    for (width, height, channels, length, values) in [
        (255, 256, 3, 255 * 256 * 3, PLANE_LEN),
        (256, 255, 4, 255 * 256 * 4, PLANE_LEN),
        (0, 256, 3, 0, PLANE_LEN),
        (256, 0, 3, 0, PLANE_LEN),
        (8_193, 256, 3, 8_193 * 256 * 3, PLANE_LEN),
        (256, 8_193, 4, 8_193 * 256 * 4, PLANE_LEN),
        (256, 256, 2, 256 * 256 * 2, PLANE_LEN),
        (256, 256, 5, 256 * 256 * 5, PLANE_LEN),
        (256, 256, 3, SMALLEST - 1, PLANE_LEN),
        (256, 256, 3, SMALLEST + 1, PLANE_LEN),
        (256, 256, 4, SMALLEST, PLANE_LEN),
        (256, 256, 3, SMALLEST, PLANE_LEN - 1),
        (256, 256, 3, SMALLEST, PLANE_LEN + 1),
        (256, 256, 3, SMALLEST, 0),
        (usize::MAX, usize::MAX, 3, 3, PLANE_LEN),
        (1 << 62, 256, 4, 0, PLANE_LEN),
    ] {
        let picture = Picture { width, height, channels };
        let (done, bytes) = lent(ours, &vec![3.0; values], picture, &vec![7; length]);
        let untouched = bytes.iter().all(|&byte| byte == 7);
        tally.count(!done && untouched, || {
            format!("vk_change takes {picture:?}, {length} samples, a change of {values}")
        });
    }
}

pub fn compare(random: &mut Random, scale: u64) -> Tally {
    let mut tally = Tally::default();
    let Some(ours) = ours::vk_change.function else {
        tally.missing.push(ours::vk_change.name);
        return tally;
    };
    compare_refused(&mut tally, ours);
    let pairs = SIDES.iter().flat_map(|&width| SIDES.map(|height| (width, height)));
    let mut case = 0;
    for (width, height) in pairs.chain(LONG) {
        for channels in 3..5 {
            // The largest picture once.
            if width * height < 1 << 26 || channels == 3 {
                let picture = Picture { width, height, channels };
                compare_picture(&mut tally, ours, case, picture, random.next_u64());
                case += 1;
            }
        }
    }
    // Every change onto 0 and 255, and onto the other kinds, at random sides.
    for case in 0..scale * RANDOM {
        let mut side = || 256 + random.below(MORE) as usize;
        let picture =
            Picture { width: side(), height: side(), channels: 3 + random.below(2) as usize };
        compare_picture(&mut tally, ours, case as usize, picture, random.next_u64());
    }
    tally
}
