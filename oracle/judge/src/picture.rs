//! Pictures to try the Rust on.

use crate::random::Random;

/// The shape of a picture's samples.
#[derive(Debug, Clone, Copy, PartialEq, Eq)]
pub struct Picture {
    pub width: usize,
    pub height: usize,
    pub channels: usize,
}

/// What a picture shows.
#[derive(Debug, Clone, Copy, PartialEq, Eq)]
pub enum Kind {
    /// Mid-grey.
    Flat,
    /// Mid-grey with mild noise, which carries a mark well.
    Grain,
    /// Brightness rising to the right and down.
    Gradient,
    /// Black and white cells of eight pixels.
    Checkers,
    /// Every sample by chance.
    Noise,
    /// Every sample 0 or 255, by chance.
    Extremes,
    /// Every sample 0.
    Black,
    /// Every sample 255.
    White,
}

pub const KINDS: [(&str, Kind); 6] = [
    ("flat", Kind::Flat),
    ("grain", Kind::Grain),
    ("gradient", Kind::Gradient),
    ("checkers", Kind::Checkers),
    ("noise", Kind::Noise),
    ("extremes", Kind::Extremes),
];

/// Two kinds more, which the stored lists do not have.
pub const SATURATED: [(&str, Kind); 2] = [("black", Kind::Black), ("white", Kind::White)];

/// The samples of a picture, the same for the same seed. A fourth channel is by chance.
pub fn samples(kind: Kind, picture: Picture, seed: u64) -> Vec<u8> {
    let mut random = Random::new(seed);
    let mut samples = Vec::with_capacity(picture.width * picture.height * picture.channels);
    for y in 0..picture.height {
        for x in 0..picture.width {
            for channel in 0..picture.channels {
                let value = if channel < 3 {
                    colour(kind, picture, x, y, &mut random)
                } else {
                    random.next_u64() as u8
                };
                samples.push(value);
            }
        }
    }
    samples
}

fn colour(kind: Kind, picture: Picture, x: usize, y: usize, random: &mut Random) -> u8 {
    match kind {
        Kind::Flat => 128,
        Kind::Grain => 112 + random.below(33) as u8,
        Kind::Gradient => ((x + y) * 255 / (picture.width + picture.height)) as u8,
        Kind::Checkers => 255 * ((x / 8 + y / 8) % 2) as u8,
        Kind::Noise => random.next_u64() as u8,
        Kind::Extremes => 255 * random.below(2) as u8,
        Kind::Black => 0,
        Kind::White => 255,
    }
}
