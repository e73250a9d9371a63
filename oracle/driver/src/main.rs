//! Feeds the Rust and ours the same inputs: `driver compare SEED SCALE`, or `driver floats`; and runs demand 3's smallest
//! faults on ours: `driver faults RECORDS`.

mod block;
mod chacha20;
mod change;
mod code;
mod crc32;
mod damage;
mod faults;
mod float;
mod layout;
mod lent;
mod luma;
mod order;
mod ours;
mod plane;
mod read;
mod record;
mod shapes;
mod sweep;
mod tally;
mod told;
mod utf8;
mod votes;
mod window;
mod write;

use std::process::ExitCode;
use std::sync::Mutex;
use std::sync::mpsc;
use std::thread;

use judge::random::Random;
use tally::Tally;

type Stage = fn(&mut Random, u64) -> Tally;

/// The stages in the order of the crates.
const STAGES: [(&str, Stage); 16] = [
    ("float", float::compare),
    ("crc32", crc32::compare),
    ("chacha20", chacha20::compare),
    ("utf8", utf8::compare),
    ("record", record::compare),
    ("layout", layout::compare),
    ("code", code::compare),
    ("block", block::compare),
    ("window", window::compare),
    ("luma", luma::compare),
    ("plane", plane::compare),
    ("change", change::compare),
    ("order", order::compare),
    ("write", write::compare),
    ("read", read::compare),
    ("votes", votes::compare),
];

/// How many stages are run at the same time.
const WORKERS: usize = 2;

fn compare(seed: u64, scale: u64) -> Tally {
    let mut total = Tally::default();
    // The last stages take longest and are started first; lines are printed in the stages' order.
    let waiting = Mutex::new((0..STAGES.len()).collect::<Vec<_>>());
    let (done, tallies) = mpsc::channel();
    thread::scope(|scope| {
        for _ in 0..WORKERS {
            let (done, waiting) = (done.clone(), &waiting);
            scope.spawn(move || {
                while let Some(number) = waiting.lock().ok().and_then(|mut stages| stages.pop()) {
                    // A stage's cases depend on the seed alone, not on the stages before it.
                    let tally = STAGES[number].1(&mut Random::new(seed), scale);
                    done.send((number, tally)).expect("the other end outlives the workers");
                }
            });
        }
        drop(done);
        let mut finished: Vec<(usize, Tally)> = tallies.iter().collect();
        finished.sort_by_key(|(number, _)| *number);
        for (number, tally) in finished {
            tally.print(STAGES[number].0);
            total.add(&tally);
        }
    });
    for symbol in ours::undeclared() {
        println!("{symbol}: exported, but not compared");
        total.different += 1;
    }
    total
}

fn run(words: &[&str]) -> Option<Tally> {
    match words {
        ["compare", seed, scale] => Some(compare(seed.parse().ok()?, scale.parse().ok()?)),
        ["floats"] => Some(sweep::compare()),
        ["faults", records] => Some(faults::run(records.parse().ok()?)),
        _ => None,
    }
}

fn main() -> ExitCode {
    let words: Vec<String> = std::env::args().skip(1).collect();
    let words: Vec<&str> = words.iter().map(String::as_str).collect();
    let Some(total) = run(&words) else {
        eprintln!("driver: compare SEED SCALE, floats, or faults RECORDS");
        return ExitCode::from(2);
    };
    println!("{} compared, {} different", total.compared, total.different);
    ExitCode::from(u8::from(total.different > 0))
}
