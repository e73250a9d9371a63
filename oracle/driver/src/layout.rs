//! The stage layout: coded bits to blocks, the blocks' votes to those of coded bits, the dither, and shuffles.

use judge::hex;
use judge::random::Random;
use judge::shuffles::{self, LENGTHS, LONGEST};
use judge::soft::votes;
use judge::stages;

use crate::ours;
use crate::tally::{Tally, Value};

/// Random words and vote sets at scale 1.
const CASES: u64 = 5_000;
/// Random shuffles at scale 1.
const SHUFFLES: u64 = 2_000;
/// Places before and after the lent ones, which must stay as they are.
const GUARD: usize = 8;

fn compare_bits(random: &mut Random, scale: u64, tally: &mut Tally) {
    let Some(ours) = ours::vk_block_bits.function else {
        tally.missing.push(ours::vk_block_bits.name);
        return;
    };
    for case in 0..scale * CASES {
        // Any bytes: the Rust carries them as they are.
        let coded: [u8; 748] = random.array();
        let mut bits = random.array();
        unsafe { ours(&coded, &mut bits) };
        let theirs = stages::block_bits(&coded);
        tally.count(bits == theirs, || {
            let first = (0..1024).find(|&block| bits[block] != theirs[block]);
            format!("vk_block_bits, case {case}: first at block {first:?}")
        });
    }
}

fn compare_votes(random: &mut Random, scale: u64, tally: &mut Tally) {
    let Some(ours) = ours::vk_gather.function else {
        tally.missing.push(ours::vk_gather.name);
        return;
    };
    for case in 0..scale * CASES {
        let blocks: [f32; 1024] = votes(random, case);
        let mut soft = [f32::NAN; 748];
        unsafe { ours(&blocks, &mut soft) };
        let theirs = stages::gather(&blocks);
        let equal = soft.iter().zip(theirs).all(|(mine, theirs)| mine.same(theirs));
        tally.count(equal, || format!("vk_gather, case {case}"));
    }
}

/// All numbers of the dither that a picture has.
fn compare_dither(tally: &mut Tally) {
    let Some(ours) = ours::vk_dither.function else {
        tally.missing.push(ours::vk_dither.name);
        return;
    };
    for (group, theirs) in stages::dither().chunks_exact(16).enumerate() {
        let mut numbers = [f32::NAN; 16];
        unsafe { ours(group as u32, &mut numbers) };
        for (mine, theirs) in numbers.iter().zip(theirs) {
            tally.count(mine.same(*theirs), || format!("vk_dither, group {group}"));
        }
    }
}

/// Lengths, counts and rooms: every length at its edges, and by chance, most of them short.
fn requests(random: &mut Random, scale: u64) -> Vec<(usize, usize, usize)> {
    let mut requests = Vec::new();
    for len in LENGTHS {
        for count in [0, 1, len.saturating_sub(1), len, len + 1, usize::MAX] {
            for room in [0, 1, len.saturating_sub(1), len, len + 1, LONGEST + 2] {
                requests.push((len, count, room));
            }
        }
    }
    for _ in 0..scale * SHUFFLES {
        let bits = 1 + random.below(13);
        let mut below = || random.below(1 << bits) as usize;
        requests.push((below(), below(), below()));
    }
    requests
}

fn compare_shuffles(random: &mut Random, scale: u64, tally: &mut Tally) {
    let Some(ours) = ours::vk_shuffle.function else {
        tally.missing.push(ours::vk_shuffle.name);
        return;
    };
    for (len, count, room) in requests(random, scale) {
        let key: [u8; 32] = random.array();
        let before: Vec<u16> = (0..room + 2 * GUARD).map(|_| random.next_u32() as u16).collect();
        let mut now = before.clone();
        let lent = &mut now[GUARD..GUARD + room];
        let mine = unsafe { ours(&key, len, count, lent.as_mut_ptr(), lent.len()) };
        let (theirs, places) = shuffles::lent(&key, len, count, room);
        let mut expected = before;
        expected[GUARD..GUARD + room].copy_from_slice(&places);
        tally.count(mine == theirs && now == expected, || {
            let key = hex::of_bytes(&key);
            let answers = format!("ours {mine}, Rust {theirs}");
            format!("vk_shuffle key {key} len {len} count {count} room {room}: {answers}")
        });
    }
}

pub fn compare(random: &mut Random, scale: u64) -> Tally {
    let mut tally = Tally::default();
    compare_bits(random, scale, &mut tally);
    compare_votes(random, scale, &mut tally);
    compare_dither(&mut tally);
    compare_shuffles(random, scale, &mut tally);
    tally
}
