//! Demand 3 by running: every single and every double fault on a record's 1,024 block votes leaves the record. Here ours is
//! held to what it promises, not to the Rust.

use judge::hex;
use judge::random::Random;
use judge::soft::sure;

use crate::ours;
use crate::tally::Tally;

const BLOCKS: usize = 1_024;

/// What a fault makes of a vote: zero, or the opposite.
const FATES: [f32; 2] = [0.0, -1.0];

fn laid(record: &[u8; 46]) -> Option<[f32; BLOCKS]> {
    let (encode, block_bits) = (ours::vk_encode.function?, ours::vk_block_bits.function?);
    let (mut coded, mut bits) = ([0; 748], [0; BLOCKS]);
    unsafe { encode(record, &mut coded) };
    unsafe { block_bits(&coded, &mut bits) };
    Some(bits.map(sure))
}

fn decoded(votes: &[f32; BLOCKS]) -> Option<[u8; 46]> {
    let (gather, decode) = (ours::vk_gather.function?, ours::vk_decode.function?);
    let (mut soft, mut record) = ([0.0; 748], [0; 46]);
    unsafe { gather(votes, &mut soft) };
    unsafe { decode(&soft, &mut record) };
    Some(record)
}

/// Every fault on one block, and on it and a later one.
fn each_fault(record: &[u8; 46], tally: &mut Tally) -> Option<()> {
    let mut votes = laid(record)?;
    let mut check = |votes: &[f32; BLOCKS], blocks: &[usize]| -> Option<()> {
        let equal = decoded(votes)? == *record;
        tally.count(equal, || format!("{}: faults at {blocks:?}", hex::of_bytes(record)));
        Some(())
    };
    for first in 0..BLOCKS {
        let kept = votes[first];
        for fate in FATES {
            votes[first] = fate * kept;
            check(&votes, &[first])?;
            for second in first + 1..BLOCKS {
                let kept = votes[second];
                for fate in FATES {
                    votes[second] = fate * kept;
                    check(&votes, &[first, second])?;
                }
                votes[second] = kept;
            }
        }
        votes[first] = kept;
    }
    Some(())
}

pub fn run(records: u64) -> Tally {
    let mut tally = Tally::default();
    let mut random = Random::new(1);
    for _ in 0..records {
        if each_fault(&random.array(), &mut tally).is_none() {
            break;
        }
    }
    tally.print("faults");
    tally
}
