//! The stage window: windows of the sizes that the port resamples between, and the weights of their source numbers.

use judge::random::Random;
use judge::stages;

use crate::ours;
use crate::tally::{Tally, Value};

/// A side of the plane.
const SIZE: usize = 256;
/// The longest side of a picture.
const LONGEST: usize = 8_192;
/// Random output numbers for each pair of sizes at scale 1.
const RANDOM: u64 = 4;

/// The functions that ours has for a window.
struct Windows {
    window: unsafe extern "C" fn(usize, usize, usize, &mut [i64; 2], &mut [f64; 3]),
    weight: unsafe extern "C" fn(usize, usize, usize, i64, &mut f32) -> bool,
}

impl Windows {
    fn found() -> Option<Self> {
        Some(Self { window: ours::vk_window.function?, weight: ours::vk_weight.function? })
    }

    /// The numbers of a window and its parts.
    fn window(&self, src: usize, dst: usize, i: usize) -> ([i64; 2], [f64; 3]) {
        let (mut numbers, mut parts) = ([i64::MIN; 2], [f64::NAN; 3]);
        unsafe { (self.window)(src, dst, i, &mut numbers, &mut parts) };
        (numbers, parts)
    }

    /// The weight of a number, where there is one; where there is none, 0 must be lent.
    fn weight(&self, src: usize, dst: usize, i: usize, j: i64) -> Option<f32> {
        let mut weight = f32::NAN;
        let found = unsafe { (self.weight)(src, dst, i, j, &mut weight) };
        assert!(found || weight.to_bits() == 0, "no weight, but {weight} lent");
        found.then_some(weight)
    }
}

fn same(mine: Option<f32>, theirs: Option<f32>) -> bool {
    match (mine, theirs) {
        (Some(mine), Some(theirs)) => mine.same(theirs),
        (mine, theirs) => mine.is_none() && theirs.is_none(),
    }
}

fn compare_window(tally: &mut Tally, ours: &Windows, src: usize, dst: usize, i: usize) {
    let theirs = stages::window(src, dst, i);
    let (numbers, parts) = ours.window(src, dst, i);
    let equal = numbers == [theirs.first, theirs.last]
        && parts[0].same(theirs.center)
        && parts[1].same(theirs.support)
        && parts[2].same(theirs.sum);
    tally.count(equal, || format!("vk_window {src} {dst} {i}: {numbers:?}, {parts:?}"));
    for (j, theirs) in stages::weights_around(src, dst, i) {
        let mine = ours.weight(src, dst, i, j);
        tally.count(same(mine, theirs), || {
            format!("vk_weight {src} {dst} {i} {j}: {mine:?}, Rust {theirs:?}")
        });
    }
}

/// What has no window: a size of 0 or over 8,192, or an output number that is not below dst.
fn compare_empty(tally: &mut Tally, ours: &Windows) {
    for (src, dst, i) in [
        (0, 256, 0),
        (256, 0, 0),
        (8_193, 256, 0),
        (256, 8_193, 0),
        (256, 256, 256),
        (usize::MAX, usize::MAX, 0),
    ] {
        let (numbers, parts) = ours.window(src, dst, i);
        let equal =
            numbers == [0, -1] && parts.map(f64::to_bits) == [0.0, 1.0, 0.0].map(f64::to_bits);
        tally.count(equal, || format!("vk_window {src} {dst} {i}: {numbers:?}, {parts:?}"));
    }
}

pub fn compare(random: &mut Random, scale: u64) -> Tally {
    let mut tally = Tally::default();
    let Some(ours) = Windows::found() else {
        tally.missing.push("vk_window and vk_weight");
        return tally;
    };
    compare_empty(&mut tally, &ours);
    let down = (1..=LONGEST).map(|src| (src, SIZE));
    let up = (SIZE..=LONGEST).map(|dst| (SIZE, dst));
    for (src, dst) in down.chain(up) {
        let mut places = vec![0, 1, dst / 2, dst - 2, dst - 1];
        places.extend((0..scale * RANDOM).map(|_| random.below(dst as u64) as usize));
        for i in places {
            compare_window(&mut tally, &ours, src, dst, i);
        }
    }
    tally
}
