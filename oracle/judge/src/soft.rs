//! Votes to feed the decoder with.

use crate::random::Random;
use crate::stages;

/// Votes of one of eight kinds, by the case's number: any numbers from -1 to 1, multiples of 1/1024, few values (so that
/// ties abound), zeros of both signs, subnormal, huge, with an infinity or two or a NaN among them, and any bit pattern.
pub fn votes<const COUNT: usize>(random: &mut Random, case: u64) -> [f32; COUNT] {
    let mut votes = std::array::from_fn(|_| {
        let word = random.next_u32();
        let unit = (word >> 8) as f32 / 8_388_608.0 - 1.0;
        match case % 8 {
            0 => unit,
            1 => (word % 2_049) as f32 / 1_024.0 - 1.0,
            2 => (word % 3) as f32 - 1.0,
            3 => f32::from_bits(word & 0x8000_0000),
            4 => f32::from_bits(word & 0x807f_ffff),
            5 => unit * f32::MAX,
            6 => unit,
            _ => f32::from_bits(word),
        }
    });
    if case % 8 == 6 {
        let specials = [f32::INFINITY, f32::NEG_INFINITY, f32::NAN];
        // Every other time without a NaN, which would decide all that comes after it.
        let kinds = 2 + case / 8 % 2;
        for _ in 0..=random.below(3) {
            votes[random.below(COUNT as u64) as usize] = specials[random.below(kinds) as usize];
        }
    }
    votes
}

/// A vote of +1 for a 0 and -1 for a 1.
pub fn sure(bit: u8) -> f32 {
    1.0 - 2.0 * f32::from(bit)
}

/// The votes of bits after damage: some zeroed, some reversed, some moved.
fn hurt<const COUNT: usize>(random: &mut Random, bits: &[u8; COUNT]) -> [f32; COUNT] {
    let damage = random.below(120);
    std::array::from_fn(|place| {
        let sure = sure(bits[place]);
        if random.below(COUNT as u64) >= damage {
            return sure;
        }
        match random.below(3) {
            0 => 0.0,
            1 => -sure,
            _ => sure * (random.below(2_049) as f32 / 1_024.0 - 1.0),
        }
    })
}

/// The damaged votes of a record's coded bits.
pub fn damaged(random: &mut Random, record: &[u8; 46]) -> [f32; 748] {
    hurt(random, &stages::encode(record))
}

/// The damaged votes of the blocks that carry a record.
pub fn damaged_blocks(random: &mut Random, record: &[u8; 46]) -> [f32; 1_024] {
    hurt(random, &stages::block_bits(&stages::encode(record)))
}
