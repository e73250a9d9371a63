//! The stage utf8, beside `std::str::from_utf8` and the scope's check on writing.

use judge::hex;
use judge::random::Random;
use judge::resilient::counted;

use crate::ours::{self, Ours};
use crate::tally::{Tally, Value};

/// Random texts at scale 1.
const CASES: u64 = 200_000;

type Check = unsafe extern "C" fn(*const u8, usize) -> bool;

/// All strings of at most two bytes, and of three that start with a lead byte.
fn short_texts() -> Vec<Vec<u8>> {
    let mut texts = vec![vec![]];
    texts.extend((0..=255).map(|byte| vec![byte]));
    texts.extend((0..=u16::MAX).map(|pair| pair.to_be_bytes().to_vec()));
    for lead in 0xc0..=0xff {
        texts.extend((0..=u16::MAX).map(|pair| [&[lead][..], &pair.to_be_bytes()].concat()));
    }
    texts
}

/// Characters by chance, of which one byte in places is another: good texts, and texts with one fault.
fn long_text(random: &mut Random) -> Vec<u8> {
    let count = random.below(12);
    let characters = (0..count).map(|_| {
        let bits = 7 + random.below(15);
        char::from_u32(random.below(1 << bits) as u32).unwrap_or('\u{d7ff}')
    });
    let mut text = characters.collect::<String>().into_bytes();
    if !text.is_empty() && random.below(2) == 0 {
        let place = random.below(text.len() as u64) as usize;
        text[place] = random.next_u32() as u8;
    }
    if random.below(4) == 0 {
        text.pop();
    }
    text
}

fn compare_check(
    tally: &mut Tally,
    ours: &Ours<Check>,
    texts: &[Vec<u8>],
    rust: impl Fn(&[u8]) -> bool,
) {
    let Some(function) = ours.function else {
        tally.missing.push(ours.name);
        return;
    };
    for text in texts {
        let mine = unsafe { function(text.as_ptr(), text.len()) };
        let theirs = rust(text);
        tally.count(mine == theirs, || {
            let text = hex::of_bytes(text);
            format!("{} {text}: ours {}, Rust {}", ours.name, mine.show(), theirs.show())
        });
    }
}

pub fn compare(random: &mut Random, scale: u64) -> Tally {
    let mut tally = Tally::default();
    let mut texts = short_texts();
    texts.extend((0..scale * CASES).map(|_| long_text(random)));
    let well_formed = |text: &[u8]| std::str::from_utf8(text).is_ok();
    compare_check(&mut tally, &ours::vk_utf8_well_formed, &texts, well_formed);
    compare_check(&mut tally, &ours::vk_utf8_counted, &texts, counted);
    tally
}
