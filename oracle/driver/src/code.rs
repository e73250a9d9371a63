//! The stage code: the encoder, and the decoder's record and final metric.

use judge::hex;
use judge::random::Random;
use judge::soft::{damaged, votes};
use judge::stages;

use crate::ours;
use crate::tally::{Tally, Value};

/// Random records and vote sets at scale 1.
const RECORDS: u64 = 5_000;
const VOTES: u64 = 200_000;

fn compare_encoder(random: &mut Random, scale: u64, tally: &mut Tally) {
    let Some(ours) = ours::vk_encode.function else {
        tally.missing.push(ours::vk_encode.name);
        return;
    };
    for _ in 0..scale * RECORDS {
        let record: [u8; 46] = random.array();
        let mut coded = random.array();
        unsafe { ours(&record, &mut coded) };
        tally.count(coded == stages::encode(&record), || {
            format!("vk_encode {}", hex::of_bytes(&record))
        });
    }
}

fn compare_decoder(random: &mut Random, scale: u64, tally: &mut Tally) {
    let Some(ours) = ours::vk_decode.function else {
        tally.missing.push(ours::vk_decode.name);
        return;
    };
    for case in 0..scale * VOTES {
        let soft = if case % 2 == 0 { votes(random, case / 2) } else { damaged_record(random) };
        let mut record = random.array();
        let metric = unsafe { ours(&soft, &mut record) };
        let equal = record == stages::decode(&soft) && metric.same(stages::final_metric(&soft));
        tally.count(equal, || format!("vk_decode, case {case}: ours {}", hex::of_bytes(&record)));
    }
}

fn damaged_record(random: &mut Random) -> [f32; 748] {
    let record = random.array();
    damaged(random, &record)
}

pub fn compare(random: &mut Random, scale: u64) -> Tally {
    let mut tally = Tally::default();
    compare_encoder(random, scale, &mut tally);
    compare_decoder(random, scale, &mut tally);
    tally
}
