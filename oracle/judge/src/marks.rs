//! Pictures of the smallest size that can be marked, and what the Rust answers when they are marked and read.

use crate::picture::Picture;
use crate::random::Random;
use crate::records::refusal;
use crate::resilient::{self, Key, Lock};
use crate::{crc32, hex, stages};

const SIDE: usize = 512;

/// As many f32 as writing needs, which is enough for reading too.
const WORK: usize = 131_072 + 2 * SIDE * SIDE;

/// The samples of a picture, by a formula that the replay program has too.
fn samples(picture: Picture) -> Vec<u8> {
    let length = picture.width * picture.height * picture.channels;
    (0..length).map(|p| (p * 7 + p / 512 * 13 + p % 1_021 * 5 + p % 97 * 3) as u8).collect()
}

/// Channels, text, key, salt; the refusal, 0 where there is none, the number given, the CRC-32 of all samples after it;
/// then the key to read with, the refusal and the number given.
fn line(channels: usize, text: &[u8], lock: Option<Lock>, with: Option<Key>) -> String {
    let picture = Picture { width: SIDE, height: SIDE, channels };
    let mut samples = samples(picture);
    let written = resilient::write(text, lock, picture, &samples, WORK);
    let refused = written.as_ref().err().copied();
    if let Ok(marked) = written {
        samples = marked;
    }
    let read = resilient::read(with, picture, &samples, WORK);
    if let Ok(read) = &read {
        assert_eq!(read.as_bytes(), text, "another text is read than was written");
    }
    let (key, salt) = lock.map_or((vec![], vec![]), |lock| (lock.key.to_vec(), lock.salt.to_vec()));
    let with = with.map_or(vec![], |key| key.to_vec());
    format!(
        "{channels:x} {} {} {:08x} {} {}",
        [text, &key, &salt].map(hex::of_bytes).join(" "),
        refusal(refused),
        crc32(&samples),
        hex::of_bytes(&with),
        refusal(read.err())
    )
}

const TEXT: &[u8] = b"Svalbard pass 4711";

/// The lock, and what follows it.
fn first_lock() -> (Lock, Random) {
    let mut random = Random::new(512);
    (Lock { key: random.array(), salt: random.array() }, random)
}

/// The bit, as a digit, that each block of a picture gets for the text under the lock.
pub fn locked_bits() -> String {
    let record = resilient::record(TEXT, Some(first_lock().0)).expect("it fits");
    stages::block_bits(&stages::encode(&record)).iter().map(u8::to_string).collect()
}

/// Texts of no bytes, of some and of 32, and two that are refused, so that the picture stays without a mark; plain and
/// under a key; each read without a key, with this one and with another.
pub fn lines() -> Vec<String> {
    let texts: [&[u8]; 5] =
        [b"", TEXT, "NOAA 19 Kärdla 2026-11-15 05:46".as_bytes(), &[b'a'; 33], b"ab\xc3"];
    let (lock, mut random) = first_lock();
    let keys = [None, Some(lock.key), Some(random.array())];
    let mut lines = Vec::new();
    for channels in [3, 4] {
        for text in texts {
            for lock in [None, Some(lock)] {
                lines.extend(keys.map(|with| line(channels, text, lock, with)));
            }
        }
    }
    lines
}
