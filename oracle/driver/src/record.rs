//! The stage record: texts built with a key and without, and records of all kinds read.

use judge::hex;
use judge::random::Random;
use judge::records::{KEYED, PLAIN, ROOM, sealed, with_outer};
use judge::resilient::{self, Key, Lock};

use crate::ours;
use crate::tally::Tally;
use crate::told::{Told, numbers};

/// Random texts built, and random records read, at scale 1.
const CASES: u64 = 100_000;

/// Characters by chance, at most so many bytes, of which one byte in places is another.
pub fn text(random: &mut Random, most: u64) -> Vec<u8> {
    let length = random.below(most + 1) as usize;
    let mut text = String::new();
    while text.len() < length {
        let bits = 7 + random.below(15) * random.below(2);
        text.push(char::from_u32(random.below(1 << bits) as u32).unwrap_or('\u{d7ff}'));
    }
    let mut text = text.into_bytes();
    text.truncate(if random.below(4) == 0 { length } else { text.len() });
    if !text.is_empty() && random.below(4) == 0 {
        let place = random.below(text.len() as u64) as usize;
        text[place] = random.next_u32() as u8;
    }
    text
}

/// Lengths at the end of the room, and such as a byte or two would hold as others.
const LENGTHS: [usize; 10] = [31, 32, 33, 254, 255, 256, 288, 65_535, 65_536, 65_568];

fn compare_built(tally: &mut Tally, random: &mut Random, scale: u64) {
    let Some(ours) = ours::vk_record.function else {
        tally.missing.push(ours::vk_record.name);
        return;
    };
    let letters = LENGTHS.map(|length| vec![b'a'; length]);
    for case in 0..scale * CASES {
        let text = text(random, 40);
        let text = letters.get(case as usize / 2).unwrap_or(&text);
        let lock = Lock { key: random.array(), salt: random.array() };
        let keyed = case % 2 == 0;
        let theirs = resilient::record(text, keyed.then_some(lock));
        let (mut record, mut given) = (random.array(), random.next_u64());
        let (at, count) = (text.as_ptr(), text.len());
        let number =
            unsafe { ours(at, count, keyed, &lock.key, &lock.salt, &mut record, &mut given) };
        let equal = (number, given) == numbers(&theirs) && record == theirs.unwrap_or([0; 46]);
        tally.count(equal, || {
            let key = hex::of_bytes(&lock.key);
            format!("vk_record {} key {keyed} {key}: ours {number} {given}", hex::of_bytes(text))
        });
    }
}

/// A record with both CRCs right for a key: a good one, or one with a wrong mode, length, text or padding.
fn whole(random: &mut Random, key: Key) -> [u8; 46] {
    let text = text(random, ROOM as u64);
    let mode = match random.below(8) {
        0 => random.next_u32() as u8,
        case => PLAIN + (case % 2) as u8,
    };
    let mut room = [0; ROOM];
    let length = text.len().min(ROOM);
    room[..length].copy_from_slice(&text[..length]);
    if random.below(8) == 0 {
        room[random.below(ROOM as u64) as usize] = random.next_u32() as u8;
    }
    let length = if random.below(8) == 0 { random.next_u32() as u8 } else { length as u8 };
    sealed(mode, random.array(), length, room, (mode == KEYED).then_some(key))
}

/// The same, and in places one bit wrong, with the outer CRC as it was or set right.
pub fn any(random: &mut Random, key: Key) -> [u8; 46] {
    let mut record = whole(random, key);
    if random.below(4) == 0 {
        record[random.below(46) as usize] ^= 1 << random.below(8);
        if random.below(2) == 0 {
            record = with_outer(record);
        }
    }
    record
}

fn compare_parsed(tally: &mut Tally, random: &mut Random, scale: u64) {
    let Some(ours) = ours::vk_parse.function else {
        tally.missing.push(ours::vk_parse.name);
        return;
    };
    for _ in 0..scale * CASES {
        let right = random.array();
        let record = any(random, right);
        let key = if random.below(8) == 0 { random.array() } else { right };
        let keyed = (record[0] == KEYED) != (random.below(8) == 0);
        let theirs = resilient::parse(record, keyed.then_some(key));
        let told = Told::by(random, |text, length, given| unsafe {
            ours(&record, keyed, &key, text, length, given)
        });
        tally.count(told == Told::of(&theirs), || {
            let key = hex::of_bytes(&key);
            format!("vk_parse {} key {keyed} {key}: ours {told:?}", hex::of_bytes(&record))
        });
    }
}

pub fn compare(random: &mut Random, scale: u64) -> Tally {
    let mut tally = Tally::default();
    compare_built(&mut tally, random, scale);
    compare_parsed(&mut tally, random, scale);
    tally
}
