//! The stage write: texts of all kinds into pictures of all kinds. Samples, answer and work area are compared.

use judge::hex;
use judge::picture::Picture;
use judge::random::Random;
use judge::resilient::{self, Lock};

use crate::lent::{Floats, Lent};
use crate::tally::Tally;
use crate::told::{flag, numbers};
use crate::{ours, record, shapes};

type Write = unsafe extern "C" fn(
    *mut u8,
    usize,
    usize,
    usize,
    usize,
    *const u8,
    usize,
    u8,
    &[u8; 32],
    &[u8; 4],
    *mut f32,
    usize,
    &mut u64,
) -> u8;

/// Texts that are refused by the added check, and one that no UTF-8 is and that passes.
const BAD: [&[u8]; 9] = [
    b"\x80",
    b"\xbf",
    b"\xff",
    b"\xf8",
    b"ab\xc3",
    b"\xe2\x82",
    b"\xf0\x9f\x98",
    b"\xc3\xc3\xa4",
    b"\xed\xa0\x80",
];

/// Letters of every length from none to beyond the room, bad texts, and mostly texts by chance.
fn text(random: &mut Random, case: usize) -> Vec<u8> {
    let turn = case / 8;
    match case % 8 {
        0 => vec![b'a'; turn % 40],
        1 if turn % 2 == 0 => BAD[turn / 2 % BAD.len()].to_vec(),
        1 => vec![b'z'; [33, 64, 255, 256, 288, 65_536, 65_568][turn / 2 % 7]],
        2 => record::text(random, 40),
        _ => {
            let mut text = String::from_utf8_lossy(&record::text(random, 32)).into_owned();
            while text.len() > 32 {
                text.pop();
            }
            text.into_bytes()
        }
    }
}

/// What ours leaves: the answer's two numbers, and the lent samples and floats.
pub struct Written {
    pub numbers: (u8, u64),
    pub samples: Lent,
    pub work: Floats,
}

/// Asks ours, over memory that is watched on both sides.
pub fn written(
    random: &mut Random,
    text: &[u8],
    lock: Option<Lock>,
    picture: Picture,
    bytes: &[u8],
    room: usize,
) -> Option<Written> {
    let ours: Write = ours::vaikelomu_write.function?;
    let mut samples = Lent::holding(random, bytes);
    let mut work = Floats::new(room);
    let locked = flag(random, lock.is_some());
    // Where there is no lock, a key and a salt are lent all the same.
    let lock = lock.unwrap_or(Lock { key: random.array(), salt: random.array() });
    let mut given = random.next_u64();
    let Picture { width, height, channels } = picture;
    let (text_at, text_length) = (text.as_ptr(), text.len());
    let number = unsafe {
        let samples_at = samples.lend().as_mut_ptr();
        let work_at = work.lend().as_mut_ptr();
        ours(
            samples_at,
            bytes.len(),
            width,
            height,
            channels,
            text_at,
            text_length,
            locked,
            &lock.key,
            &lock.salt,
            work_at,
            room,
            &mut given,
        )
    };
    Some(Written { numbers: (number, given), samples, work })
}

fn compare_picture(tally: &mut Tally, random: &mut Random, case: usize, picture: Picture) {
    let bytes = shapes::samples(random, case, picture);
    let text = text(random, case);
    let lock = (random.below(2) == 0).then(|| Lock { key: random.array(), salt: random.array() });
    let room = shapes::room(random, picture, 2);
    let Some(ours) = written(random, &text, lock, picture, &bytes, room) else {
        return;
    };
    let theirs = resilient::write(&text, lock, picture, &bytes, room);
    let work_as_said = if theirs.is_ok() { ours.work.cleared() } else { ours.work.kept() };
    let equal = ours.numbers == numbers(&theirs)
        && ours.samples.is(theirs.as_deref().unwrap_or(&bytes))
        && work_as_said;
    tally.count(equal, || {
        let (name, _) = shapes::kind(case);
        let (start, length) = (hex::of_bytes(&text[..text.len().min(40)]), text.len());
        let (mine, theirs) = (ours.numbers, numbers(&theirs));
        format!(
            "vaikelomu_write, case {case}, {name} {picture:?}, {room} lent, {length} bytes {start} {lock:?}: \
             ours {mine:?}, Rust {theirs:?}, work area as said: {work_as_said}"
        )
    });
}

pub fn compare(random: &mut Random, scale: u64) -> Tally {
    let mut tally = Tally::default();
    if ours::vaikelomu_write.function.is_none() {
        tally.missing.push(ours::vaikelomu_write.name);
        return tally;
    }
    for (case, picture) in shapes::shapes(random, scale).into_iter().enumerate() {
        compare_picture(&mut tally, random, case, picture);
    }
    tally
}
