//! The stage plane: from a picture's samples to the plane, with rows of the plane counted.

use judge::picture::{KINDS, Picture, samples};
use judge::random::Random;
use judge::stages;

use crate::ours;
use crate::tally::{Tally, Value};

/// The values of a plane.
const PLANE_LEN: usize = 256 * 256;
/// Values before and after the plane, which must stay as they are.
const GUARD: usize = 64;
/// Pictures of random sides at scale 1.
const RANDOM: u64 = 60;
/// The longest side of those.
const MIDDLE: u64 = 700;

type Plane = unsafe extern "C" fn(*const u8, usize, usize, usize, usize, *mut f32, usize) -> bool;

/// Sides that are tried with each other, each pair with one kind of picture.
const SIDES: [usize; 19] =
    [1, 2, 3, 4, 5, 6, 7, 8, 9, 64, 127, 255, 256, 257, 383, 511, 512, 513, 1_021];

/// Sides at the upper edge, and two large pictures.
const LONG: [(usize, usize); 12] = [
    (8_191, 1),
    (8_192, 1),
    (1, 8_191),
    (1, 8_192),
    (8_192, 3),
    (5, 8_192),
    (8_191, 257),
    (255, 8_191),
    (8_192, 256),
    (4_099, 31),
    (2_503, 3_001),
    (8_192, 8_192),
];

/// Ours, over a plane that is watched on both sides.
fn lent(ours: Plane, bytes: &[u8], picture: Picture, room: usize) -> (bool, Vec<f32>) {
    let mut plane = vec![-1.0; room + 2 * GUARD];
    let done = unsafe {
        let middle = plane[GUARD..].as_mut_ptr();
        let Picture { width, height, channels } = picture;
        ours(bytes.as_ptr(), bytes.len(), width, height, channels, middle, room)
    };
    let untouched = |values: &[f32]| values.iter().all(|&value| value == -1.0);
    assert!(untouched(&plane[..GUARD]) && untouched(&plane[GUARD + room..]), "{picture:?}");
    (done, plane[GUARD..GUARD + room].to_vec())
}

fn compare_picture(tally: &mut Tally, ours: Plane, kind: usize, picture: Picture, seed: u64) {
    let (name, kind) = KINDS[kind % KINDS.len()];
    let bytes = samples(kind, picture, seed);
    let theirs = stages::plane(&bytes, picture.channels, picture.width, picture.height);
    let (done, mine) = lent(ours, &bytes, picture, PLANE_LEN);
    tally.count(done, || format!("vk_plane refuses {picture:?}"));
    for (row, (mine, theirs)) in mine.chunks_exact(256).zip(theirs.chunks_exact(256)).enumerate() {
        let equal = mine.iter().zip(theirs).all(|(mine, theirs)| mine.same(*theirs));
        tally.count(equal, || format!("vk_plane, {name} {picture:?} {seed}: row {row}"));
    }
}

/// What no picture has is refused, and nothing is written.
fn compare_refused(tally: &mut Tally, ours: Plane) {
    for (width, height, channels, length, room) in [
        (0, 4, 3, 0, PLANE_LEN),
        (4, 0, 3, 0, PLANE_LEN),
        (8_193, 1, 3, 8_193 * 3, PLANE_LEN),
        (1, 8_193, 4, 8_193 * 4, PLANE_LEN),
        (4, 4, 2, 32, PLANE_LEN),
        (4, 4, 5, 80, PLANE_LEN),
        (4, 4, 3, 47, PLANE_LEN),
        (4, 4, 3, 49, PLANE_LEN),
        (4, 4, 3, 48, PLANE_LEN - 1),
        (4, 4, 3, 48, PLANE_LEN + 1),
        (usize::MAX, usize::MAX, 3, 3, PLANE_LEN),
        (1 << 62, 4, 4, 0, PLANE_LEN),
    ] {
        let picture = Picture { width, height, channels };
        let (done, plane) = lent(ours, &vec![7; length], picture, room);
        let untouched = plane.iter().all(|&value| value == -1.0);
        tally.count(!done && untouched, || {
            format!("vk_plane takes {picture:?}, {length} samples, room {room}")
        });
    }
}

pub fn compare(random: &mut Random, scale: u64) -> Tally {
    let mut tally = Tally::default();
    let Some(ours) = ours::vk_plane.function else {
        tally.missing.push(ours::vk_plane.name);
        return tally;
    };
    compare_refused(&mut tally, ours);
    let pairs = SIDES.iter().flat_map(|&width| SIDES.map(|height| (width, height)));
    for (case, (width, height)) in pairs.chain(LONG).enumerate() {
        // 3 and 4 channels: both for small pictures, in turn for the others.
        for channels in 3..5 {
            if width * height < 1_024 || (case + channels) % 2 == 0 {
                let picture = Picture { width, height, channels };
                compare_picture(&mut tally, ours, case, picture, random.next_u64());
            }
        }
    }
    for case in 0..scale * RANDOM {
        let mut side = || 1 + random.below(MIDDLE) as usize;
        let picture = Picture { width: side(), height: side(), channels: 3 + case as usize % 2 };
        compare_picture(&mut tally, ours, case as usize, picture, random.next_u64());
    }
    tally
}
