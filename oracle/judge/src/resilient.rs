//! Writing and reading: the scope's refusals in its order, and behind them the Rust.

use argon2::password_of;
use instrumented::stages;
use invisible_watermark::image::{DynamicImage, RgbImage, RgbaImage};

use crate::hex;
use crate::picture::Picture;
use crate::refusal::{Refused, from_instrumented, from_unchanged};

const LONGEST_TEXT: usize = 32;
const SHORTEST_SIDE: usize = 512;
const LONGEST_SIDE: usize = 8_192;
const BLOCKS: usize = 1_024;
const VOTES_LEN: usize = 4 * BLOCKS;

/// 32 bytes of key, in place of the Rust's password.
pub type Key = [u8; 32];

/// What encrypts a record: a key and a salt.
#[derive(Debug, Clone, Copy)]
pub struct Lock {
    pub key: Key,
    pub salt: [u8; 4],
}

/// The scope's check of a text to be written: leading bytes with as many others as they announce.
pub fn counted(mut text: &[u8]) -> bool {
    while let [first, rest @ ..] = text {
        let following = match first {
            0x00..=0x7f => 0,
            0xc0..=0xdf => 1,
            0xe0..=0xef => 2,
            0xf0..=0xf7 => 3,
            _ => return false,
        };
        if rest.len() < following || !rest[..following].iter().all(|b| (0x80..=0xbf).contains(b)) {
            return false;
        }
        text = &rest[following..];
    }
    true
}

/// Refusals 1 and 2.
fn text_refusal(text: &[u8]) -> Option<Refused> {
    if text.len() > LONGEST_TEXT {
        Some(Refused::new(1, text.len() as u64))
    } else if !counted(text) {
        Some(Refused::new(2, 0))
    } else {
        None
    }
}

/// Refusals 4 to 7.
fn picture_refusal(picture: Picture, length: usize, work: usize, planes: usize) -> Option<Refused> {
    let longer = picture.width.max(picture.height);
    if longer > LONGEST_SIDE {
        return Some(Refused::new(4, longer as u64));
    }
    if picture.channels != 3 && picture.channels != 4 {
        return Some(Refused::new(5, picture.channels as u64));
    }
    let pixels = picture.width * picture.height;
    if length != pixels * picture.channels {
        return Some(Refused::new(6, length as u64));
    }
    let needed = planes * (65_536 + pixels);
    (work < needed).then(|| Refused::new(7, needed as u64))
}

fn write_refusal(text: &[u8], picture: Picture, length: usize, work: usize) -> Option<Refused> {
    let shorter = picture.width.min(picture.height);
    text_refusal(text)
        .or_else(|| (shorter < SHORTEST_SIDE).then(|| Refused::new(3, shorter as u64)))
        .or_else(|| picture_refusal(picture, length, work, 2))
}

fn read_refusal(picture: Picture, length: usize, work: usize) -> Option<Refused> {
    let zero_side = picture.width == 0 || picture.height == 0;
    zero_side.then(|| Refused::new(8, 0)).or_else(|| picture_refusal(picture, length, work, 1))
}

/// The Rust's container, where there is one for these samples.
fn container(picture: Picture, samples: &[u8]) -> Option<DynamicImage> {
    let width = u32::try_from(picture.width).ok()?;
    let height = u32::try_from(picture.height).ok()?;
    let bytes = samples.to_vec();
    match picture.channels {
        3 => RgbImage::from_raw(width, height, bytes).map(DynamicImage::ImageRgb8),
        4 => RgbaImage::from_raw(width, height, bytes).map(DynamicImage::ImageRgba8),
        _ => None,
    }
}

fn samples_of(image: DynamicImage) -> Vec<u8> {
    if image.color().has_alpha() {
        image.into_rgba8().into_raw()
    } else {
        image.into_rgb8().into_raw()
    }
}

/// The text as the Rust's type. The check of the scope lets texts through that are not UTF-8, for
/// which the type does not vouch: the Rust asks it for nothing but its length and its bytes.
fn as_str(text: &[u8]) -> &str {
    unsafe { std::str::from_utf8_unchecked(text) }
}

fn rust_write(
    image: DynamicImage,
    text: &[u8],
    lock: Option<Lock>,
) -> Result<DynamicImage, invisible_watermark::Error> {
    match lock {
        None => invisible_watermark::embed_resilient(image, as_str(text)),
        Some(Lock { key, salt }) => {
            getrandom::set_next(salt);
            let password = password_of(&key);
            invisible_watermark::embed_resilient_with_password(image, as_str(text), &password)
        }
    }
}

/// The marked samples. `work` is the number of f32 lent.
///
/// Refusals 1 and 3 are the Rust's own, so there it is asked too, where it can take the samples at all.
pub fn write(
    text: &[u8],
    lock: Option<Lock>,
    picture: Picture,
    samples: &[u8],
    work: usize,
) -> Result<Vec<u8>, Refused> {
    let refusal = write_refusal(text, picture, samples.len(), work);
    let is_own = |refused: Refused| refused.number == 1 || refused.number == 3;
    let image = container(picture, samples);
    match (refusal, image) {
        (None, None) => unreachable!("samples that pass the scope have a container"),
        (None, Some(image)) => {
            let marked =
                rust_write(image, text, lock).expect("the Rust takes what the scope takes");
            Ok(samples_of(marked))
        }
        (Some(refused), Some(image)) if is_own(refused) => {
            let error = rust_write(image, text, lock).expect_err("the Rust refuses 1 and 3 itself");
            assert_eq!(from_unchanged(error, [0; 4]), refused);
            Err(refused)
        }
        (Some(refused), _) => Err(refused),
    }
}

/// Marks a picture with any record, as the Rust does with that of a text: it has no function for it.
pub fn mark_record(record: &[u8; 46], picture: Picture, samples: &mut [u8]) {
    let Picture { width, height, channels } = picture;
    let plane = stages::plane(samples, channels, width, height);
    let mut change = plane.clone();
    stages::embed_bits(&mut change, &stages::block_bits(&stages::encode(record)));
    for (changed, original) in change.iter_mut().zip(&plane) {
        *changed -= original;
    }
    stages::change(samples, channels, width, height, &change);
}

/// The text of a picture. `work` is the number of f32 lent.
///
/// The unchanged Rust answers; the instrumented copy, which also knows the salt, must say the same.
pub fn read(
    key: Option<Key>,
    picture: Picture,
    samples: &[u8],
    work: usize,
) -> Result<String, Refused> {
    if let Some(refused) = read_refusal(picture, samples.len(), work) {
        return Err(refused);
    }
    let image = container(picture, samples).expect("samples that pass the scope have a container");
    let answer = match key {
        None => invisible_watermark::extract_resilient(&image),
        Some(key) => {
            invisible_watermark::extract_resilient_with_password(&image, &password_of(&key))
        }
    };
    let record = record_of_votes(&picture_votes(picture, samples));
    let answer = answer.map_err(|error| from_unchanged(error, salt_of(&record)));
    assert_eq!(answer, parse(record, key), "the instrumented copy differs");
    answer
}

/// The votes of a picture that `read` would take.
pub fn picture_votes(picture: Picture, samples: &[u8]) -> [f32; BLOCKS] {
    let plane = stages::plane(samples, picture.channels, picture.width, picture.height);
    stages::block_soft(&plane).try_into().expect("a vote for each block")
}

fn record_of_votes(votes: &[f32; BLOCKS]) -> [u8; 46] {
    stages::decode(&stages::gather(votes))
}

fn salt_of(record: &[u8; 46]) -> [u8; 4] {
    [record[1], record[2], record[3], record[4]]
}

/// Refusals 4 to 6, and 8 for a zero side, for the stages between samples and votes.
pub fn samples_refusal(picture: Picture, length: usize) -> Option<Refused> {
    read_refusal(picture, length, usize::MAX)
}

/// The record that votes give.
pub fn votes_record(votes: &[f32]) -> Result<[u8; 46], Refused> {
    let Ok(blocks) = <&[f32; BLOCKS]>::try_from(votes) else {
        return Err(Refused::new(6, votes.len() as u64));
    };
    if let Some(index) = votes.iter().position(|vote| !(-1.0..=1.0).contains(vote)) {
        return Err(Refused::new(15, index as u64));
    }
    Ok(record_of_votes(blocks))
}

/// The text that votes give.
pub fn read_votes(votes: &[f32], key: Option<Key>) -> Result<String, Refused> {
    parse(votes_record(votes)?, key)
}

/// The record of a text.
pub fn record(text: &[u8], lock: Option<Lock>) -> Result<[u8; 46], Refused> {
    if let Some(refused) = text_refusal(text) {
        return Err(refused);
    }
    let password = lock.map(|lock| (password_of(&lock.key), lock.salt));
    let lock = password.as_ref().map(|(password, salt)| (password.as_str(), *salt));
    stages::record(as_str(text), lock).map_err(|error| from_instrumented(error, [0; 4]))
}

/// The text of a record.
pub fn parse(record: [u8; 46], key: Option<Key>) -> Result<String, Refused> {
    let password = key.map(|key| password_of(&key));
    stages::parse(record, password.as_deref())
        .map_err(|error| from_instrumented(error, salt_of(&record)))
}

/// The line that the scope's program prints of a text.
pub fn line(text: &str) -> String {
    format!("text {} {}", text.len(), hex::of_bytes(text.as_bytes()))
}

/// What the scope's program `votes` answers to an input, of which it reads at most 4,097 bytes.
pub fn votes(input: &[u8]) -> Result<String, Refused> {
    let input = &input[..input.len().min(VOTES_LEN + 1)];
    if input.len() != VOTES_LEN {
        return Err(Refused::new(6, input.len() as u64));
    }
    let votes: Vec<f32> =
        input.as_chunks::<4>().0.iter().map(|&bytes| f32::from_le_bytes(bytes)).collect();
    read_votes(&votes, None)
}
