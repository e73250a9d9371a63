//! Shuffles of many keys and lengths, what the Rust answers for them, and the numbers around a draw's limit.

use crate::random::Random;
use crate::{hex, stages};

/// The scope's key of the layout.
const LAYOUT_KEY: [u8; 32] = *b"iwm v3 public layout key\0\0\0\0\0\0\0\0";
/// The longest list that the port shuffles.
pub const LONGEST: usize = 4_096;
/// Lengths around the ends of the range and of bytes.
pub const LENGTHS: [usize; 10] = [0, 1, 2, 3, 255, 256, 1_024, 4_095, 4_096, 4_097];

/// The number of entries, and what `room` lent places hold: the scope cuts the count to the room, gives no entries of a
/// longer list, and zeros beyond the entries.
pub fn lent(key: &[u8; 32], len: usize, count: usize, room: usize) -> (usize, Vec<u16>) {
    let allowed = if len <= LONGEST { count.min(room) } else { 0 };
    let entries = stages::shuffle(key, len, allowed);
    let mut places: Vec<u16> = entries.iter().map(|&entry| entry as u16).collect();
    places.resize(room, 0);
    (entries.len(), places)
}

fn of_entries(entries: &[u16]) -> String {
    entries.iter().map(|entry| format!("{entry:04x}")).collect()
}

fn line(key: &[u8; 32], len: usize, count: usize, room: usize) -> String {
    let (number, places) = lent(key, len, count, room);
    let operand = format!("{}{len:016x}{count:016x}{room:04x}", hex::of_bytes(key));
    format!("{operand} {number:04x}{}", of_entries(&places))
}

/// The layout's key and the layout.
pub fn layout() -> Vec<String> {
    let layout = stages::layout();
    assert_eq!(layout, stages::shuffle(&LAYOUT_KEY, layout.len(), layout.len()));
    let blocks: Vec<u16> = layout.into_iter().map(|block| block as u16).collect();
    vec![format!("{} {}", hex::of_bytes(&LAYOUT_KEY), of_entries(&blocks))]
}

/// Every length with counts and rooms that cut it and that do not, whole shuffles of the long ones, and many keys.
pub fn cases() -> Vec<String> {
    let mut random = Random::new(4_096);
    let mut lines = Vec::new();
    for len in LENGTHS {
        for (count, room) in
            [(0, 0), (0, 3), (1, 1), (1, 0), (len, 5), (len + 1, 4), (usize::MAX, 2)]
        {
            lines.push(line(&random.array(), len, count, room));
        }
        lines.push(line(&random.array(), len, len, len.min(LONGEST)));
        lines.push(line(&random.array(), len.min(256), usize::MAX, len.min(256) + 3));
    }
    lines.extend([[0; 32], [0xff; 32]].map(|key| line(&key, 1_024, 1_024, 1_024)));
    for _ in 0..200 {
        let len = random.below(LONGEST as u64 + 2) as usize;
        let (count, room) = (random.below(40) as usize, random.below(40) as usize);
        lines.push(line(&random.array(), len, count, room));
    }
    lines
}

/// Numbers around each range's limit, the largest multiple of it that is at most 2^64, and whether they lie below it.
/// The Rust has no function for a single draw, so this is computed here.
pub fn accepted() -> Vec<String> {
    let ranges = [
        1,
        2,
        3,
        4,
        5,
        7,
        10,
        255,
        256,
        1_000,
        1_023,
        1_024,
        4_093,
        4_095,
        4_096,
        u64::from(u32::MAX),
        1 << 32,
        (1 << 63) - 1,
        1 << 63,
        (1 << 63) + 1,
        u64::MAX - 1,
        u64::MAX,
    ];
    let mut lines = Vec::new();
    for range in ranges {
        let limit = (1_u128 << 64) / u128::from(range) * u128::from(range);
        let around = (0..5).map(|distance| limit + 2 - distance);
        for value in around.chain([0, 1 << 63, u128::from(u64::MAX)]) {
            if let Ok(value) = u64::try_from(value) {
                let taken = u8::from(u128::from(value) < limit);
                lines.push(format!("{value:016x}{range:016x} {taken:02x}"));
            }
        }
    }
    lines
}
