//! The stage chacha20, beside the stand-in: blocks, and the stream from any position to its end.

use judge::cipher;
use judge::hex;
use judge::random::Random;

use crate::lent::Lent;
use crate::ours;
use crate::tally::Tally;

/// Random blocks, and random parts of the stream, at scale 1.
const CASES: u64 = 20_000;
/// The stream's length: 2^32 blocks of 64 bytes.
const END: u64 = 1 << 38;

fn compare_blocks(tally: &mut Tally, random: &mut Random, scale: u64) {
    let Some(ours) = ours::vk_chacha20_block.function else {
        tally.missing.push(ours::vk_chacha20_block.name);
        return;
    };
    let edges = [0, 1, 2, 0x7fff_ffff, 0x8000_0000, u32::MAX - 1, u32::MAX];
    for case in 0..scale * CASES {
        let (key, nonce): ([u8; 32], [u8; 12]) = (random.array(), random.array());
        let edge = edges.get(case as usize).copied();
        let counter = edge.unwrap_or_else(|| random.next_u32());
        let mut block = random.array();
        unsafe { ours(&key, counter, &nonce, &mut block) };
        tally.count(block == cipher::block(&key, counter, &nonce), || {
            let (key, nonce) = (hex::of_bytes(&key), hex::of_bytes(&nonce));
            format!("vk_chacha20_block key {key} counter {counter} nonce {nonce}")
        });
    }
}

/// Positions and lengths: from the start, anywhere, and around the end of the stream and beyond it.
fn parts(random: &mut Random, scale: u64) -> Vec<(u64, usize)> {
    let mut parts = Vec::new();
    for distance in 0..=130 {
        for length in [0, 1, 63, 64, 65, 127, 128, 129, 130, distance, distance + 1] {
            parts.push((distance, length as usize));
            parts.push((END - distance, length as usize));
            parts.push((END + distance, length as usize));
        }
    }
    for position in [u64::MAX, u64::MAX - 64, 1 << 63, END << 1] {
        for length in [0, 1, 64, 65, 200] {
            parts.push((position, length));
        }
    }
    for _ in 0..scale * CASES {
        let bits = 1 + random.below(38);
        parts.push((random.below(1 << bits), random.below(700) as usize));
    }
    parts
}

fn compare_parts(tally: &mut Tally, random: &mut Random, scale: u64) {
    let Some(ours) = ours::vk_chacha20_apply.function else {
        tally.missing.push(ours::vk_chacha20_apply.name);
        return;
    };
    for (position, length) in parts(random, scale) {
        let (key, nonce): ([u8; 32], [u8; 12]) = (random.array(), random.array());
        let mut lent = Lent::new(random, length);
        let mut expected = lent.original();
        let theirs = match cipher::apply(&key, &nonce, position, &mut expected) {
            Ok(next) => (0, next),
            Err(refused) => (refused.number, position),
        };
        let (bytes, mut next) = (lent.lend(), position);
        let number = unsafe { ours(&key, &nonce, &mut next, bytes.as_mut_ptr(), bytes.len()) };
        let mine = (number, next);
        tally.count(mine == theirs && lent.is(&expected), || {
            let (key, nonce) = (hex::of_bytes(&key), hex::of_bytes(&nonce));
            let answers = format!("ours {mine:?}, Rust {theirs:?}");
            format!("vk_chacha20_apply key {key} nonce {nonce} from {position}, {length} bytes: {answers}")
        });
    }
}

pub fn compare(random: &mut Random, scale: u64) -> Tally {
    let mut tally = Tally::default();
    compare_blocks(&mut tally, random, scale);
    compare_parts(&mut tally, random, scale);
    tally
}
