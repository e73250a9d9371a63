//! The stage crc32, beside the stand-in.

use judge::crc32;
use judge::hex;
use judge::random::Random;

use crate::ours;
use crate::tally::{Tally, Value};

/// Random messages at scale 1.
const CASES: u64 = 5_000;

/// Every message of at most two bytes.
fn short_messages() -> impl Iterator<Item = Vec<u8>> {
    let one = (0..=255).map(|byte| vec![byte]);
    let two = (0..=u16::MAX).map(|pair| pair.to_be_bytes().to_vec());
    std::iter::once(Vec::new()).chain(one).chain(two)
}

/// For each length a message by chance, and the two in which all bits are equal.
fn each_length(random: &mut Random) -> Vec<Vec<u8>> {
    (0..=300)
        .flat_map(|length| [random.bytes(length), vec![0; length], vec![255; length]])
        .collect()
}

pub fn compare(random: &mut Random, scale: u64) -> Tally {
    let mut tally = Tally::default();
    let Some(ours) = ours::vk_crc32.function else {
        tally.missing.push(ours::vk_crc32.name);
        return tally;
    };
    let mut check = |message: &[u8]| {
        let mine = unsafe { ours(message.as_ptr(), message.len()) };
        let theirs = crc32(message);
        tally.count(mine == theirs, || {
            let message = hex::of_bytes(message);
            format!("vk_crc32 {message}: ours {}, Rust {}", mine.show(), theirs.show())
        });
    };
    short_messages().for_each(|message| check(&message));
    each_length(random).iter().for_each(|message| check(message));
    for _ in 0..scale * CASES {
        let length = random.below(5_000) as usize;
        // A part that starts anywhere, so that no alignment is taken for granted.
        let message = random.bytes(length + 16);
        let start = random.below(16) as usize;
        check(&message[start..start + length]);
    }
    tally
}
