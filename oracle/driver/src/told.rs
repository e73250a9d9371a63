//! What a call of ours tells: the refusal's number or 0, the number given, and of a reading the text and its length.

use judge::random::Random;
use judge::records::ROOM;
use judge::refusal::Refused;

/// The two numbers of an answer.
pub fn numbers<T>(answer: &Result<T, Refused>) -> (u8, u64) {
    answer.as_ref().err().map_or((0, 0), |refused| (refused.number, refused.given))
}

/// A flag as C may set it: 0, or any other number.
pub fn flag(random: &mut Random, given: bool) -> u8 {
    if given { 1 + random.below(255) as u8 } else { 0 }
}

#[derive(Debug, Clone, Copy, PartialEq, Eq)]
pub struct Told {
    pub number: u8,
    pub given: u64,
    pub length: usize,
    pub text: [u8; ROOM],
}

impl Told {
    /// What is to be told of an answer.
    pub fn of(answer: &Result<String, Refused>) -> Told {
        let (number, given) = numbers(answer);
        let said = answer.as_deref().unwrap_or_default();
        let mut text = [0; ROOM];
        text[..said.len()].copy_from_slice(said.as_bytes());
        Told { number, given, length: said.len(), text }
    }

    /// What ours tells, into memory that holds something else and is watched on both sides.
    pub fn by(
        random: &mut Random,
        ask: impl FnOnce(&mut [u8; ROOM], &mut usize, &mut u64) -> u8,
    ) -> Told {
        let before: [[u8; ROOM]; 3] = std::array::from_fn(|_| random.array());
        let (mut lent, mut length, mut given) = (before, 99, random.next_u64());
        let number = ask(&mut lent[1], &mut length, &mut given);
        assert!(lent[0] == before[0] && lent[2] == before[2], "written beside the text");
        Told { number, given, length, text: lent[1] }
    }
}
