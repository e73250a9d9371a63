//! The stage votes: sets of votes of all kinds, and the record that each gives; read with the right key, with a wrong one,
//! with none and with one too many.

use judge::random::Random;
use judge::refusal::Refused;
use judge::resilient::{self, Key};
use judge::soft::{damaged_blocks, votes};

use crate::tally::Tally;
use crate::told::{Told, flag, numbers};
use crate::{ours, read, record};

/// Vote sets at scale 1.
const CASES: u64 = 200_000;

/// Numbers of votes that no picture has.
const LENGTHS: [usize; 9] = [0, 1, 2, 748, 1_023, 1_025, 1_026, 2_048, 4_096];

/// Votes at the ends, inside and outside.
const ENDS: [f32; 14] = [
    1.0,
    -1.0,
    0.0,
    -0.0,
    f32::MIN_POSITIVE / 2.0,
    1.0 - f32::EPSILON / 2.0,
    1.0 + f32::EPSILON,
    -1.0 - f32::EPSILON,
    2.0,
    f32::MAX,
    f32::INFINITY,
    f32::NEG_INFINITY,
    f32::NAN,
    -f32::NAN,
];

type ReadVotes = unsafe extern "C" fn(
    *const f32,
    usize,
    u8,
    &[u8; 32],
    &mut [u8; 32],
    &mut usize,
    &mut u64,
) -> u8;

/// What ours tells.
pub fn told(random: &mut Random, votes: &[f32], key: Option<Key>) -> Option<Told> {
    let ours: ReadVotes = ours::vaikelomu_read_votes.function?;
    let keyed = flag(random, key.is_some());
    let key = key.unwrap_or(random.array());
    Some(Told::by(random, |text, length, given| unsafe {
        ours(votes.as_ptr(), votes.len(), keyed, &key, text, length, given)
    }))
}

type Record = unsafe extern "C" fn(*const f32, usize, &mut [u8; 46], &mut u64) -> u8;

/// What is told of a record: the refusal's number or 0, the number given, and the record, zeros where refused.
#[derive(Debug, PartialEq, Eq)]
pub struct ToldRecord {
    pub number: u8,
    pub given: u64,
    pub record: [u8; 46],
}

impl ToldRecord {
    /// What is to be told of an answer.
    fn of(answer: &Result<[u8; 46], Refused>) -> ToldRecord {
        let (number, given) = numbers(answer);
        ToldRecord { number, given, record: answer.as_ref().copied().unwrap_or([0; 46]) }
    }
}

/// The record that ours tells, into memory that holds something else and is watched on both sides.
pub fn told_record(random: &mut Random, votes: &[f32]) -> Option<ToldRecord> {
    let ours: Record = ours::vaikelomu_record.function?;
    let before: [[u8; 46]; 3] = std::array::from_fn(|_| random.array());
    let (mut lent, mut given) = (before, random.next_u64());
    let number = unsafe { ours(votes.as_ptr(), votes.len(), &mut lent[1], &mut given) };
    assert!(lent[0] == before[0] && lent[2] == before[2], "written beside the record");
    Some(ToldRecord { number, given, record: lent[1] })
}

/// A quarter are votes of any kind, a half the damaged votes of a record, and a quarter those with a few votes more of
/// which some are bad, every fourth of them in another number.
fn set(random: &mut Random, case: u64, record: &[u8; 46]) -> Vec<f32> {
    if case % 4 == 0 {
        return votes::<1_024>(random, case / 4).to_vec();
    }
    let mut votes = damaged_blocks(random, record).to_vec();
    if case % 4 == 1 {
        for _ in 0..=random.below(3) {
            let place = match random.below(4) {
                0 => 0,
                1 => 1_023,
                _ => random.below(1_024) as usize,
            };
            votes[place] = ENDS[random.below(ENDS.len() as u64) as usize];
        }
        if random.below(4) == 0 {
            let length = LENGTHS[random.below(LENGTHS.len() as u64) as usize];
            votes = votes.into_iter().cycle().take(length).collect();
        }
    }
    votes
}

pub fn compare(random: &mut Random, scale: u64) -> Tally {
    let mut tally = Tally::default();
    let names = [ours::vaikelomu_read_votes.name, ours::vaikelomu_record.name];
    tally.missing.extend(names.iter().filter(|name| !ours::has(name)));
    for case in 0..scale * CASES {
        let right = random.array();
        let record = record::any(random, right);
        let votes = set(random, case, &record);
        let key = read::asked(random, &record, right);
        if let Some(told) = told(random, &votes, key) {
            let expected = Told::of(&resilient::read_votes(&votes, key));
            tally.count(told == expected, || {
                format!("vaikelomu_read_votes, case {case}: ours {told:?}, Rust {expected:?}")
            });
        }
        if let Some(told) = told_record(random, &votes) {
            let expected = ToldRecord::of(&resilient::votes_record(&votes));
            tally.count(told == expected, || {
                format!("vaikelomu_record, case {case}: ours {told:?}, Rust {expected:?}")
            });
        }
    }
    tally
}
