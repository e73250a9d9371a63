//! The stage luma: a row of samples to the luma of its pixels, with rows counted. Every colour is tried.

use judge::random::Random;
use judge::stages;

use crate::ours;
use crate::tally::{Tally, Value};

/// The longest row.
const LONGEST: usize = 8_192;
/// The colours, 256 for each channel.
const COLOURS: u32 = 1 << 24;
/// Values before and after the luma, which must stay as they are.
const GUARD: usize = 64;
/// Rows of random lengths at scale 1.
const RANDOM: u64 = 2_000;

type Luma = unsafe extern "C" fn(*const u8, usize, usize, *mut f32, usize) -> bool;

/// Ours, over room that is watched on both sides.
fn lent(ours: Luma, row: &[u8], channels: usize, room: usize) -> (bool, Vec<f32>) {
    let mut luma = vec![-1.0; room + 2 * GUARD];
    let done = unsafe {
        let middle = luma[GUARD..].as_mut_ptr();
        ours(row.as_ptr(), row.len(), channels, middle, room)
    };
    let untouched = |values: &[f32]| values.iter().all(|&value| value == -1.0);
    assert!(untouched(&luma[..GUARD]) && untouched(&luma[GUARD + room..]), "{channels} {room}");
    (done, luma[GUARD..GUARD + room].to_vec())
}

fn compare_row(tally: &mut Tally, ours: Luma, row: &[u8], channels: usize, name: &str) {
    let theirs = stages::luma(row, channels);
    let (done, mine) = lent(ours, row, channels, theirs.len());
    let equal = done && mine.iter().zip(&theirs).all(|(mine, theirs)| mine.same(*theirs));
    tally.count(equal, || format!("vk_luma, {name}, {} pixels of {channels}", theirs.len()));
}

/// Every colour once, in rows of the longest length; of four channels the last is of any value.
fn compare_colours(tally: &mut Tally, ours: Luma, random: &mut Random, channels: usize) {
    for first in (0..COLOURS).step_by(LONGEST) {
        let mut row = random.bytes(LONGEST * channels);
        for (pixel, colour) in row.chunks_exact_mut(channels).zip(first..) {
            pixel[..3].copy_from_slice(&colour.to_be_bytes()[1..]);
        }
        compare_row(tally, ours, &row, channels, &format!("colours from {first:06x}"));
    }
}

/// What no row of a picture has is refused, and nothing is written.
fn compare_refused(tally: &mut Tally, ours: Luma) {
    for (length, channels, room) in [
        (0, 3, 0),
        (8, 2, 4),
        (20, 5, 4),
        (11, 3, 4),
        (13, 3, 4),
        (12, 3, 3),
        (12, 3, 5),
        (12, 4, 4),
        (LONGEST * 3 + 3, 3, LONGEST + 1),
        (LONGEST * 4 + 4, 4, LONGEST + 1),
        (0, usize::MAX, 4),
        (0, 1 << 62, 4),
    ] {
        let (done, luma) = lent(ours, &vec![7; length], channels, room);
        let untouched = luma.iter().all(|&value| value == -1.0);
        tally.count(!done && untouched, || {
            format!("vk_luma takes {length} samples of {channels} channels, room {room}")
        });
    }
}

pub fn compare(random: &mut Random, scale: u64) -> Tally {
    let mut tally = Tally::default();
    let Some(ours) = ours::vk_luma.function else {
        tally.missing.push(ours::vk_luma.name);
        return tally;
    };
    compare_refused(&mut tally, ours);
    for channels in 3..5 {
        compare_colours(&mut tally, ours, random, channels);
    }
    for case in 0..scale * RANDOM {
        let channels = 3 + case as usize % 2;
        let pixels = 1 + random.below(LONGEST as u64) as usize;
        // The row starts in the middle of a buffer.
        let start = random.below(9) as usize;
        let bytes = random.bytes(start + pixels * channels);
        compare_row(&mut tally, ours, &bytes[start..], channels, "random");
    }
    tally
}
