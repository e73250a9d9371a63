//! Counts for each list that the gate replays, and for each order of operations that could be exchanged, how many of the
//! stored cases would show it: `orders CRATES`. A count of 0, and a stored answer that is not that of `judge::orders`
//! without an exchange, is a fault.

use std::path::Path;
use std::process::ExitCode;
use std::{env, fs};

use judge::hex;
use judge::orders::{EXCHANGES, Swap, answer};

/// The cases of a list: operand, and the fields behind it as one.
fn cases(path: &Path) -> Option<Vec<(Vec<u8>, Vec<u8>)>> {
    let text = fs::read_to_string(path).ok()?;
    let lines = text.lines().filter(|line| !line.starts_with('#'));
    lines
        .map(|line| {
            let (operand, result) = line.split_once(' ')?;
            Some((hex::to_bytes(operand)?, hex::to_bytes(&result.replace(' ', ""))?))
        })
        .collect()
}

/// Prints a list's lines of the table, and answers how many of them are faulty.
fn count(crates: &Path, program: &str, list: &str, swaps: &[(Swap, &str)]) -> usize {
    let path = crates.join(program).join("data").join(format!("{list}.txt"));
    let Some(cases) = cases(&path) else {
        println!("{program} {list}: not a list");
        return 1;
    };
    let as_stored =
        |(operand, result): &&(Vec<u8>, Vec<u8>)| answer(list, operand, Swap::Nothing) != *result;
    let different = cases.iter().filter(as_stored).count();
    let mut faults = different;
    if different > 0 {
        println!("{program} {list}: {different} answers differ without an exchange");
    }
    for (swap, reading) in swaps {
        let telling =
            cases.iter().filter(|(operand, result)| answer(list, operand, *swap) != *result);
        let telling = telling.count();
        println!("{program} {list}, {reading}: {telling} of {}", cases.len());
        faults += usize::from(telling == 0);
    }
    faults
}

fn main() -> ExitCode {
    let Some(crates) = env::args().nth(1) else {
        eprintln!("orders: CRATES");
        return ExitCode::from(2);
    };
    let crates = Path::new(&crates);
    let faults: usize =
        EXCHANGES.iter().map(|(program, list, swaps)| count(crates, program, list, swaps)).sum();
    ExitCode::from(u8::from(faults > 0))
}
