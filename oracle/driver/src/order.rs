//! The stage order: every set of faults at once, held to a direct reading of the scope and not to the Rust. The first
//! refusal that applies is given, and none where there is no fault. The version is held to the header's.

use judge::picture::{Kind, Picture, samples};
use judge::random::Random;
use judge::records::{KEYED, PLAIN, ROOM, sealed};
use judge::resilient::{Key, mark_record};
use judge::soft::sure;
use judge::stages;

use crate::tally::Tally;
use crate::told::Told;
use crate::votes::ToldRecord;
use crate::{ours, read, votes, write};

/// The faults of a set, of which bit n stands for the n-th.
fn has(set: u32, fault: u32) -> bool {
    set >> fault & 1 == 1
}

/// The first fault's refusal, or the last.
fn first(set: u32, refusals: &[(u8, u64)]) -> (u8, u64) {
    refusals[(set.trailing_zeros() as usize).min(refusals.len() - 1)]
}

/// 1, 2, 3, 4, 5, 6, 7: all sets of them.
fn compare_writes(tally: &mut Tally, random: &mut Random) {
    for set in 0..1 << 7 {
        let text = match (has(set, 0), has(set, 1)) {
            (true, bad) => vec![if bad { 0xff } else { b'a' }; 33],
            (false, true) => vec![0xc3],
            (false, false) => vec![b'a'; 32],
        };
        let width = if has(set, 2) { 511 } else { 512 };
        let height = if has(set, 3) { 8_193 } else { 512 };
        let channels = if has(set, 4) { 2 } else { 3 };
        let picture = Picture { width, height, channels };
        let length = width * height * channels - usize::from(has(set, 5));
        let needed = 131_072 + 2 * width * height;
        let room = needed - usize::from(has(set, 6));
        let bytes = vec![120; length];
        let Some(ours) = write::written(random, &text, None, picture, &bytes, room) else {
            return;
        };
        let refusals = [
            (1, 33),
            (2, 0),
            (3, width as u64),
            (4, height as u64),
            (5, channels as u64),
            (6, length as u64),
            (7, needed as u64),
            (0, 0),
        ];
        let expected = first(set, &refusals);
        let left = if set == 0 {
            ours.work.cleared()
        } else {
            ours.samples.is(&bytes) && ours.work.kept()
        };
        tally.count(ours.numbers == expected && left, || {
            let numbers = ours.numbers;
            format!("vaikelomu_write, faults {set:07b}: ours {numbers:?}, said {expected:?}, memory as said: {left}")
        });
    }
}

/// Sides and channels that nobody has memory for, and others that are refused by themselves.
const HUGE: [(usize, usize, usize, (u8, u64), (u8, u64)); 11] = [
    (usize::MAX, usize::MAX, 3, (4, u64::MAX), (4, u64::MAX)),
    (usize::MAX, 512, 3, (4, u64::MAX), (4, u64::MAX)),
    (1 << 62, 512, 4, (4, 1 << 62), (4, 1 << 62)),
    (1 << 32, 1 << 32, 4, (4, 1 << 32), (4, 1 << 32)),
    (usize::MAX, 0, 4, (3, 0), (8, 0)),
    (512, 512, usize::MAX, (5, u64::MAX), (5, u64::MAX)),
    (512, 512, 1 << 46, (5, 1 << 46), (5, 1 << 46)),
    (8_193, 9_000, 3, (4, 9_000), (4, 9_000)),
    (9_000, 8_193, 4, (4, 9_000), (4, 9_000)),
    (512, 512, 0, (5, 0), (5, 0)),
    (512, 512, 1, (5, 1), (5, 1)),
];

fn compare_huge(tally: &mut Tally, random: &mut Random) {
    for (width, height, channels, to_write, to_read) in HUGE {
        let picture = Picture { width, height, channels };
        if let Some(ours) = write::written(random, b"a", None, picture, &[], 0) {
            tally.count(ours.numbers == to_write && ours.work.kept(), || {
                format!("vaikelomu_write {picture:?}: ours {:?}, said {to_write:?}", ours.numbers)
            });
        }
        if let Some((told, work)) = read::told(random, None, picture, &[], 0) {
            tally.count(told == refused(to_read) && work.kept(), || {
                format!("vaikelomu_read {picture:?}: ours {told:?}, said {to_read:?}")
            });
        }
    }
}

fn refused((number, given): (u8, u64)) -> Told {
    Told { number, given, length: 0, text: [0; ROOM] }
}

/// 8 for a zero side, 4, 5, 6 and 7: all sets of them, in a picture without a mark.
fn compare_reads(tally: &mut Tally, random: &mut Random) {
    for set in 0..1 << 5 {
        let width = if has(set, 0) { 0 } else { 3 };
        let height = if has(set, 1) { 8_193 } else { 5 };
        let channels = if has(set, 2) { 5 } else { 4 };
        let picture = Picture { width, height, channels };
        let length = width * height * channels + usize::from(has(set, 3));
        let needed = 65_536 + width * height;
        let room = needed - usize::from(has(set, 4));
        let Some((told, work)) = read::told(random, None, picture, &vec![120; length], room) else {
            return;
        };
        let refusals = [
            (8, 0),
            (4, height as u64),
            (5, channels as u64),
            (6, length as u64),
            (7, needed as u64),
            (8, 0),
        ];
        let expected = refused(first(set, &refusals));
        let left = if set == 0 { work.cleared() } else { work.kept() };
        tally.count(told == expected && left, || {
            format!("vaikelomu_read, faults {set:05b}: ours {told:?}, said {expected:?}, memory as said: {left}")
        });
    }
}

const KEY: Key = [0x5a; 32];
const SALT: [u8; 4] = [1, 2, 3, 4];
const TEXT: &[u8] = b"Saturn V";

/// What is wrong inside a record, in the scope's order: length over 32, padding, inner CRC, UTF-8.
const INSIDES: u32 = 4;

/// A record with faults: outer CRC, mode, and then the insides.
fn faulty(set: u32, keyed: bool) -> [u8; 46] {
    let mode = match keyed {
        _ if has(set, 1) => 0x33,
        true => KEYED,
        false => PLAIN,
    };
    let mut room = [0; ROOM];
    room[..TEXT.len()].copy_from_slice(TEXT);
    let length = if has(set, 3) { 33 } else { TEXT.len() as u8 };
    room[20] = u8::from(has(set, 4));
    if has(set, 6) {
        room[1] = 0xff;
    }
    let key = keyed.then_some(KEY);
    let mut record = sealed(mode, if keyed { SALT } else { [0; 4] }, length, room, key);
    if has(set, 5) {
        record[40] ^= 1;
        record = judge::records::with_outer(record);
    }
    if has(set, 0) {
        record[44] ^= 1;
    }
    record
}

/// What is to be told of that record, where fault 2 is a key that is missing or too many.
fn told_of(set: u32, keyed: bool) -> Told {
    let salt = u64::from(u32::from_be_bytes(SALT));
    let (key_refusal, inside) = if keyed { ((11, salt), (13, 0)) } else { ((10, 0), (12, 0)) };
    let mut refusals = vec![(8, 0), (9, 0x33), key_refusal];
    refusals.extend([inside; INSIDES as usize]);
    refusals.push((0, 0));
    let (number, given) = first(set, &refusals);
    if number != 0 {
        return refused((number, given));
    }
    let mut text = [0; ROOM];
    text[..TEXT.len()].copy_from_slice(TEXT);
    Told { number, given, length: TEXT.len(), text }
}

/// Number of votes, a bad vote, and the record's faults: all sets of them, plain and under a key. The record alone has no
/// fault of its own.
fn compare_votes(tally: &mut Tally, random: &mut Random) {
    for (set, keyed) in (0..1 << 9).flat_map(|set| [(set, false), (set, true)]) {
        let record = set >> 2;
        let bits = stages::block_bits(&stages::encode(&faulty(record, keyed)));
        let mut votes = bits.map(sure).to_vec();
        if has(set, 0) {
            votes.pop();
        }
        if has(set, 1) {
            (votes[700], votes[701]) = (f32::NAN, 1.5);
        }
        let key = (keyed != has(record, 2)).then_some(KEY);
        let (number, given) = match set & 3 {
            0 => (0, 0),
            2 => (15, 700),
            _ => (6, 1_023),
        };
        let what = format!("faults {set:09b}, {keyed}");
        if let Some(told) = votes::told(random, &votes, key) {
            let read = told_of(record, keyed);
            let expected = if number == 0 { read } else { refused((number, given)) };
            tally.count(told == expected, || {
                format!("vaikelomu_read_votes, {what}: ours {told:?}, said {expected:?}")
            });
        }
        if let Some(told) = votes::told_record(random, &votes) {
            let record = if number == 0 { faulty(record, keyed) } else { [0; 46] };
            let expected = ToldRecord { number, given, record };
            tally.count(told == expected, || {
                format!("vaikelomu_record, {what}: ours {told:?}, said {expected:?}")
            });
        }
    }
}

/// A number that the header defines.
fn defined(name: &str) -> Option<u32> {
    let header = include_str!("../../../include/vaikelomu.h");
    let line = header.lines().find_map(|line| line.strip_prefix("#define ")?.strip_prefix(name));
    line?.trim().parse().ok()
}

/// The version that the header defines.
fn compare_version(tally: &mut Tally) {
    let Some(ours) = ours::vaikelomu_version.function else {
        return;
    };
    let parts =
        ["MAJOR", "MINOR", "PATCH"].map(|part| defined(&format!("VAIKELOMU_VERSION_{part}")));
    let version = unsafe { ours() };
    let equal = parts == [version >> 16, version >> 8 & 255, version & 255].map(Some);
    tally.count(equal, || format!("vaikelomu_version: ours {version:06x}, the header {parts:?}"));
}

/// The record's faults in a picture.
fn compare_marks(tally: &mut Tally, random: &mut Random) {
    let picture = Picture { width: 512, height: 512, channels: 3 };
    let bytes = samples(Kind::Grain, picture, 1);
    for (set, keyed) in (0..1 << 7).flat_map(|set| [(set, false), (set, true)]) {
        let mut marked = bytes.clone();
        mark_record(&faulty(set, keyed), picture, &mut marked);
        let key = (keyed != has(set, 2)).then_some(KEY);
        let Some((told, work)) = read::told(random, key, picture, &marked, 327_680) else {
            return;
        };
        let expected = told_of(set, keyed);
        tally.count(told == expected && work.cleared(), || {
            format!("vaikelomu_read, faults {set:07b}, {keyed}: ours {told:?}, said {expected:?}")
        });
    }
}

pub fn compare(random: &mut Random, _scale: u64) -> Tally {
    let mut tally = Tally::default();
    let names = [
        ours::vaikelomu_write.name,
        ours::vaikelomu_read.name,
        ours::vaikelomu_read_votes.name,
        ours::vaikelomu_record.name,
        ours::vaikelomu_version.name,
    ];
    tally.missing.extend(names.iter().filter(|name| !ours::has(name)));
    compare_writes(&mut tally, random);
    compare_huge(&mut tally, random);
    compare_reads(&mut tally, random);
    compare_votes(&mut tally, random);
    compare_marks(&mut tally, random);
    compare_version(&mut tally);
    tally
}
