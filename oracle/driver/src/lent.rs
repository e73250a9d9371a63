//! Memory that is lent to ours, watched on both sides.

use std::ops::Range;

use judge::random::Random;

/// Bytes before and after the lent ones, which must stay as they are.
const GUARD: usize = 32;

/// Bytes to be lent from the middle of a larger buffer.
pub struct Lent {
    before: Vec<u8>,
    now: Vec<u8>,
    length: usize,
}

impl Lent {
    pub fn new(random: &mut Random, length: usize) -> Lent {
        let before = random.bytes(length + 2 * GUARD);
        let now = before.clone();
        Lent { before, now, length }
    }

    /// The bytes that are given, with others around them.
    pub fn holding(random: &mut Random, bytes: &[u8]) -> Lent {
        let before = [&random.bytes(GUARD), bytes, &random.bytes(GUARD)].concat();
        let now = before.clone();
        Lent { before, now, length: bytes.len() }
    }

    pub fn lend(&mut self) -> &mut [u8] {
        &mut self.now[GUARD..GUARD + self.length]
    }

    pub fn original(&self) -> Vec<u8> {
        self.before[GUARD..GUARD + self.length].to_vec()
    }

    /// Whether the lent bytes are `expected` and those around them untouched.
    pub fn is(&self, expected: &[u8]) -> bool {
        let end = GUARD + self.length;
        self.now[GUARD..end] == *expected
            && self.now[..GUARD] == self.before[..GUARD]
            && self.now[end..] == self.before[end..]
    }
}

/// Floats of all kinds but +0.0, to be lent from the middle of a larger buffer.
pub struct Floats {
    now: Vec<f32>,
    length: usize,
}

/// The bits that stand at a place before anything is written there.
fn bits_at(place: usize) -> u32 {
    (place as u32).wrapping_mul(0x9e37_79b9) | 1
}

impl Floats {
    pub fn new(length: usize) -> Floats {
        let now = (0..length + 2 * GUARD).map(|place| f32::from_bits(bits_at(place))).collect();
        Floats { now, length }
    }

    pub fn lend(&mut self) -> &mut [f32] {
        &mut self.now[GUARD..GUARD + self.length]
    }

    /// Whether these places are as they were.
    fn untouched(&self, places: Range<usize>) -> bool {
        let range = places.clone();
        places.zip(&self.now[range]).all(|(place, now)| now.to_bits() == bits_at(place))
    }

    /// Whether all is as it was lent.
    pub fn kept(&self) -> bool {
        self.untouched(0..self.now.len())
    }

    /// Whether all that was lent is +0.0, and what stands around it untouched.
    pub fn cleared(&self) -> bool {
        let end = GUARD + self.length;
        self.now[GUARD..end].iter().all(|now| now.to_bits() == 0)
            && self.untouched(0..GUARD)
            && self.untouched(end..self.now.len())
    }
}
