//! Records of every kind, and what the Rust answers when they are built and when they are parsed.

use crate::random::Random;
use crate::refusal::Refused;
use crate::resilient::{self, Key, Lock};
use crate::{cipher, crc32, hex};

pub const PLAIN: u8 = 0x31;
pub const KEYED: u8 = 0x32;
pub const ROOM: usize = 32;

/// Texts that are not UTF-8, of which the last two pass the check on writing.
const BAD: [&[u8]; 7] = [
    b"\x80",
    b"\xff",
    b"ab\xc3",
    b"\xe2\x82",
    b"\xf0\x9f\x98",
    b"\xed\xa0\x80",
    b"\xf4\x90\x80\x80",
];

fn lock() -> Lock {
    let mut random = Random::new(32);
    Lock { key: random.array(), salt: random.array() }
}

/// The refusal's number, 0 where there is none, and the number given.
pub fn refusal(refused: Option<Refused>) -> String {
    let refused = refused.unwrap_or(Refused::new(0, 0));
    format!("{:02x} {:x}", refused.number, refused.given)
}

/// Text, key, salt; then the refusal, 0 where there is none, the number given, and the record, zeros where refused.
fn built_line(text: &[u8], lock: Option<Lock>) -> String {
    let (key, salt) = lock.map_or((vec![], vec![]), |lock| (lock.key.to_vec(), lock.salt.to_vec()));
    let answer = resilient::record(text, lock);
    let fields = [text, &key, &salt].map(hex::of_bytes).join(" ");
    format!("{fields} {} {}", refusal(answer.err()), hex::of_bytes(&answer.unwrap_or([0; 46])))
}

/// Texts of the lengths around both ends, of whole characters and of wrong ones, without a lock and with one.
pub fn built() -> Vec<String> {
    let ascii = b"NOAA 19 2026-11-15 05:46 elev 71 deg";
    let mut texts: Vec<Vec<u8>> = [0, 1, 2, 16, 31, 32, 33].map(|n| ascii[..n].to_vec()).into();
    texts.push("Kärdla \u{20ac} \u{1f6f0}".into());
    texts.extend(BAD.map(<[u8]>::to_vec));
    texts.extend([vec![0; 32], vec![0x41; 255], vec![0xff; 33], vec![0xff; 255]]);
    texts.extend([256, 288].map(|length| vec![0x41; length]));
    let both = |text: &Vec<u8>| [built_line(text, None), built_line(text, Some(lock()))];
    texts.iter().flat_map(both).collect()
}

/// Record and key; then the refusal, 0 where there is none, the number given, the length, and the text with zeros after it.
fn parsed_line(record: [u8; 46], key: Option<Key>) -> String {
    let answer = resilient::parse(record, key);
    let text = answer.clone().unwrap_or_default();
    let mut bytes = [0; ROOM];
    bytes[..text.len()].copy_from_slice(text.as_bytes());
    let key = key.map_or(vec![], |key| key.to_vec());
    let fields = [record.as_slice(), &key].map(hex::of_bytes).join(" ");
    format!("{fields} {} {:02x} {}", refusal(answer.err()), text.len(), hex::of_bytes(&bytes))
}

/// The record with its outer CRC set right.
pub fn with_outer(mut record: [u8; 46]) -> [u8; 46] {
    let outer = crc32(&record[..42]);
    record[42..].copy_from_slice(&outer.to_be_bytes());
    record
}

/// A record with both CRCs right, whatever it holds.
pub fn sealed(mode: u8, salt: [u8; 4], length: u8, room: [u8; ROOM], key: Option<Key>) -> [u8; 46] {
    let mut record = [0; 46];
    record[0] = mode;
    record[1..5].copy_from_slice(&salt);
    record[5] = length;
    record[6..38].copy_from_slice(&room);
    let inner = crc32(&record[..38]);
    record[38..42].copy_from_slice(&inner.to_be_bytes());
    if let Some(key) = key {
        cipher::apply(&key, &[0; 12], 0, &mut record[5..42]).expect("37 bytes from the start");
    }
    with_outer(record)
}

/// A length and what stands in the room for text, in a plain record and in a keyed one.
fn both(length: u8, text: &[u8]) -> [String; 2] {
    let Lock { key, salt } = lock();
    let mut room = [0; ROOM];
    room[..text.len()].copy_from_slice(text);
    [
        parsed_line(sealed(PLAIN, [0; 4], length, room, None), None),
        parsed_line(sealed(KEYED, salt, length, room, Some(key)), Some(key)),
    ]
}

/// Each byte of a record wrong in turn, as it is and with the outer CRC set right.
fn damaged(record: [u8; 46], key: Option<Key>) -> Vec<String> {
    let wrong = |place: usize| {
        let mut record = record;
        record[place] ^= 1 << (place % 8);
        record
    };
    let bare = (0..46).map(|place| parsed_line(wrong(place), key));
    let repaired = (0..42).map(|place| parsed_line(with_outer(wrong(place)), key));
    bare.chain(repaired).collect()
}

/// Keys against modes, damage, and insides that are wrong though the CRCs are right.
pub fn parsed() -> Vec<String> {
    let lock = lock();
    let text = b"Saturn V / S-IVB";
    let plain = resilient::record(text, None).expect("it fits");
    let keyed = resilient::record(text, Some(lock)).expect("it fits");
    let other = Random::new(33).array();
    let mut lines = vec![
        parsed_line(plain, None),
        parsed_line(plain, Some(lock.key)),
        parsed_line(keyed, Some(lock.key)),
        parsed_line(keyed, Some(other)),
        parsed_line(keyed, None),
        parsed_line(sealed(PLAIN, lock.salt, 1, [0; ROOM], None), None),
        parsed_line([0; 46], None),
        parsed_line(with_outer([0; 46]), None),
    ];
    for (record, right, wrong) in [(plain, None, Some(lock.key)), (keyed, Some(lock.key), None)] {
        lines.extend(damaged(record, right));
        lines.extend(damaged(record, wrong));
    }
    let letters = [0x61; ROOM];
    for length in 0..=ROOM {
        lines.extend(both(length as u8, &letters[..length]));
    }
    lines.extend([33, 34, 127, 128, 255].into_iter().flat_map(|length| both(length, &letters)));
    for place in 0..ROOM {
        let mut room = [0; ROOM];
        room[place] = 1;
        lines.extend(both(0, &room));
        lines.extend(both(place as u8, &room));
    }
    lines.extend(BAD.into_iter().flat_map(|bad| both(bad.len() as u8, bad)));
    let modes = (0..=255).filter(|mode| !(PLAIN..=KEYED).contains(mode));
    lines.extend(modes.map(|mode| {
        let key = (mode % 2 == 0).then_some(lock.key);
        parsed_line(sealed(mode, lock.salt, 0, [0; ROOM], None), key)
    }));
    lines
}
