//! Times each stage of the port, and writing and reading as a whole, beside the Rust that they replace. The two sides
//! take turns on the same input, and the run stops where their outputs differ. Peak memory is taken of processes that
//! write or read once.

use std::hint::black_box;
use std::process::Command;
use std::time::Instant;

use judge::picture::{Kind, Picture, samples};
use judge::random::Random;
use judge::soft::{damaged, damaged_blocks};
use judge::unchanged::image::{DynamicImage, RgbImage, RgbaImage};
use judge::unchanged::{embed_resilient, extract_resilient};
use judge::{cipher, crc32, resilient, stages};

unsafe extern "C" {
    fn vk_round_all_to_u8(from: *const f32, from_len: usize, to: *mut u8, to_len: usize);
    fn vk_crc32(bytes: *const u8, len: usize) -> u32;
    fn vk_chacha20_apply(
        key: &[u8; 32],
        nonce: &[u8; 12],
        position: &mut u64,
        bytes: *mut u8,
        len: usize,
    ) -> u8;
    fn vk_there_and_back(plane: &mut [f32; 65536]);
    fn vk_encode(record: &[u8; 46], coded: &mut [u8; 748]);
    fn vk_decode(soft: &[f32; 748], record: &mut [u8; 46]) -> f32;
    fn vk_plane(
        samples: *const u8,
        len: usize,
        width: usize,
        height: usize,
        channels: usize,
        plane: *mut f32,
        plane_len: usize,
    ) -> bool;
    fn vk_change(
        change: *const f32,
        change_len: usize,
        width: usize,
        height: usize,
        channels: usize,
        samples: *mut u8,
        len: usize,
    ) -> bool;
    fn vaikelomu_write(
        samples: *mut u8,
        len: usize,
        width: usize,
        height: usize,
        channels: usize,
        text: *const u8,
        text_len: usize,
        locked: u8,
        key: &[u8; 32],
        salt: &[u8; 4],
        work: *mut f32,
        work_len: usize,
        given: &mut u64,
    ) -> u8;
    fn vaikelomu_read(
        samples: *const u8,
        len: usize,
        width: usize,
        height: usize,
        channels: usize,
        keyed: u8,
        key: &[u8; 32],
        work: *mut f32,
        work_len: usize,
        text: &mut [u8; 32],
        length: &mut usize,
        given: &mut u64,
    ) -> u8;
    fn vaikelomu_read_votes(
        votes: *const f32,
        len: usize,
        keyed: u8,
        key: &[u8; 32],
        text: &mut [u8; 32],
        length: &mut usize,
        given: &mut u64,
    ) -> u8;
}

/// Runs the two in turn and prints the medians in milliseconds and their ratio.
fn row(name: &str, runs: usize, ours: impl FnMut(), rust: impl FnMut()) {
    let (our, rust) = medians(runs, ours, rust);
    println!("{name:<40} {our:>10.3} {rust:>10.3} {:>8.2}", our / rust);
}

/// The same for so many bytes, with the megabytes of each in a second.
fn row_of_bytes(name: &str, bytes: usize, runs: usize, ours: impl FnMut(), rust: impl FnMut()) {
    let (our, rust) = medians(runs, ours, rust);
    let speed = |ms: f64| bytes as f64 / ms / 1e3;
    print!("{name:<40} {our:>10.3} {rust:>10.3} {:>8.2}", our / rust);
    println!(" {:>10.0} {:>10.0}", speed(our), speed(rust));
}

fn medians(runs: usize, mut ours: impl FnMut(), mut rust: impl FnMut()) -> (f64, f64) {
    let (mut our_times, mut rust_times) = (Vec::new(), Vec::new());
    for _ in 0..runs {
        our_times.push(timed(&mut ours));
        rust_times.push(timed(&mut rust));
    }
    (median(our_times), median(rust_times))
}

fn timed(run: &mut impl FnMut()) -> f64 {
    let start = Instant::now();
    run();
    start.elapsed().as_secs_f64() * 1e3
}

fn median(mut times: Vec<f64>) -> f64 {
    times.sort_by(f64::total_cmp);
    times[times.len() / 2]
}

/// Values around the range of a sample.
fn round_to_u8(runs: usize) {
    let mut random = Random::new(1);
    let from: Vec<f32> =
        (0..1 << 24).map(|_| random.below(262_000) as f32 / 1000.0 - 3.0).collect();
    let (mut ours, mut rust) = (vec![0u8; from.len()], vec![0u8; from.len()]);
    row(
        "round to u8, 16,777,216 values",
        runs,
        || unsafe {
            vk_round_all_to_u8(from.as_ptr(), from.len(), ours.as_mut_ptr(), ours.len());
            black_box(&ours);
        },
        || {
            for (to, x) in rust.iter_mut().zip(&from) {
                *to = x.round().clamp(0.0, 255.0) as u8;
            }
            black_box(&rust);
        },
    );
    assert_eq!(ours, rust);
}

/// Messages of one length; the Rust is the stand-in's, a byte at a time.
fn checksums(runs: usize, length: usize, count: usize) {
    let messages = Random::new(2).bytes(length + count);
    let (mut ours, mut rust) = (0, 0);
    row_of_bytes(
        &format!("crc32, {count} x {length} bytes"),
        length * count,
        runs,
        || {
            let sums = messages.windows(length).take(count);
            ours = sums.fold(0, |sum, m| sum ^ unsafe { vk_crc32(m.as_ptr(), m.len()) });
        },
        || rust = messages.windows(length).take(count).fold(0, |sum, m| sum ^ crc32(m)),
    );
    assert_eq!(ours, rust);
}

/// The keystream put onto parts of one length, each with a key of its own; the Rust is the stand-in's.
fn keystreams(runs: usize, length: usize, count: usize) {
    let mut random = Random::new(5);
    let keys: Vec<([u8; 32], [u8; 12])> =
        (0..count).map(|_| (random.array(), random.array())).collect();
    let mut ours = random.bytes(length * count);
    let mut rust = ours.clone();
    row_of_bytes(
        &format!("chacha20, {count} x {length} bytes"),
        length * count,
        runs,
        || {
            for ((key, nonce), part) in keys.iter().zip(ours.chunks_exact_mut(length)) {
                unsafe { vk_chacha20_apply(key, nonce, &mut 0, part.as_mut_ptr(), length) };
            }
        },
        || {
            for ((key, nonce), part) in keys.iter().zip(rust.chunks_exact_mut(length)) {
                cipher::apply(key, nonce, 0, part).expect("the stream's start");
            }
        },
    );
    assert_eq!(ours, rust);
}

fn encoder(runs: usize) {
    let mut random = Random::new(3);
    let records: Vec<[u8; 46]> = (0..1_000).map(|_| random.array()).collect();
    let (mut ours, mut rust) = (vec![[0; 748]; 1_000], vec![[0; 748]; 1_000]);
    row(
        "encode, 1,000 records",
        runs,
        || {
            for (record, coded) in records.iter().zip(&mut ours) {
                unsafe { vk_encode(record, coded) };
            }
        },
        || {
            for (record, coded) in records.iter().zip(&mut rust) {
                *coded = stages::encode(record);
            }
        },
    );
    assert_eq!(ours, rust);
}

fn decoder(runs: usize) {
    let mut random = Random::new(4);
    let soft: Vec<[f32; 748]> = (0..200)
        .map(|_| {
            let record = random.array();
            damaged(&mut random, &record)
        })
        .collect();
    let (mut ours, mut rust) = (vec![[0; 46]; 200], vec![[0; 46]; 200]);
    row(
        "decode, 200 vote sets",
        runs,
        || {
            for (soft, record) in soft.iter().zip(&mut ours) {
                unsafe { vk_decode(soft, record) };
            }
        },
        || {
            for (soft, record) in soft.iter().zip(&mut rust) {
                *record = stages::decode(soft);
            }
        },
    );
    assert_eq!(ours, rust);
}

/// A plane of samples, whose rounding errors both sides make alike.
fn transforms(runs: usize) {
    let mut random = Random::new(6);
    let samples: Vec<f32> = (0..65_536).map(|_| random.below(256) as f32).collect();
    let mut ours: Box<[f32; 65_536]> = samples.into_boxed_slice().try_into().expect("a plane");
    let mut rust = ours.clone();
    row(
        "forward and inverse, 1,024 blocks",
        runs,
        || unsafe { vk_there_and_back(&mut ours) },
        || stages::there_and_back(&mut rust[..]),
    );
    assert_eq!(ours, rust);
}

/// A square picture of three channels to the plane.
fn planes(runs: usize, side: usize) {
    let samples = Random::new(7).bytes(side * side * 3);
    let (mut ours, mut rust) = (vec![0.0; 65_536], Vec::new());
    row_of_bytes(
        &format!("samples to plane, {side} x {side}"),
        samples.len(),
        runs,
        || {
            let (from, to) = (samples.as_ptr(), ours.as_mut_ptr());
            assert!(unsafe { vk_plane(from, samples.len(), side, side, 3, to, 65_536) });
        },
        || rust = stages::plane(&samples, 3, side, side),
    );
    assert_eq!(ours, rust);
}

/// A small change put onto a square picture of three channels, again in each run.
fn changes(runs: usize, side: usize) {
    let mut random = Random::new(8);
    let change: Vec<f32> =
        (0..65_536).map(|_| (random.below(16_001) as f32 - 8_000.0) / 1_000.0).collect();
    let mut ours = random.bytes(side * side * 3);
    let mut rust = ours.clone();
    row_of_bytes(
        &format!("change to samples, {side} x {side}"),
        side * side * 3,
        runs,
        || {
            let (from, to, len) = (change.as_ptr(), ours.as_mut_ptr(), ours.len());
            assert!(unsafe { vk_change(from, change.len(), side, side, 3, to, len) });
        },
        || stages::change(&mut rust, 3, side, side, &change),
    );
    assert!(ours == rust, "change to samples, {side} x {side}");
}

const TEXT: &str = "NOAA 19 2026-11-15 05:46";

/// The Rust's container of a square picture's samples.
fn container(side: usize, channels: usize, samples: Vec<u8>) -> DynamicImage {
    let side = side as u32;
    if channels == 3 {
        DynamicImage::ImageRgb8(RgbImage::from_raw(side, side, samples).expect("its samples"))
    } else {
        DynamicImage::ImageRgba8(RgbaImage::from_raw(side, side, samples).expect("its samples"))
    }
}

fn samples_of(image: DynamicImage) -> Vec<u8> {
    if image.color().has_alpha() {
        image.into_rgba8().into_raw()
    } else {
        image.into_rgb8().into_raw()
    }
}

/// The places of the work area that writing needs, and those that reading does.
fn work_to_write(side: usize) -> usize {
    131_072 + 2 * side * side
}

fn work_to_read(side: usize) -> usize {
    65_536 + side * side
}

fn write_ours(samples: &mut [u8], side: usize, channels: usize, work: &mut [f32]) {
    let (to, length, floats) = (samples.as_mut_ptr(), samples.len(), work.len());
    let (text, room, mut given) = (TEXT.as_ptr(), work.as_mut_ptr(), 0);
    let answer = unsafe {
        vaikelomu_write(
            to,
            length,
            side,
            side,
            channels,
            text,
            TEXT.len(),
            0,
            &[0; 32],
            &[0; 4],
            room,
            floats,
            &mut given,
        )
    };
    assert_eq!(answer, 0);
}

fn read_ours(samples: &[u8], side: usize, channels: usize, work: &mut [f32]) -> String {
    let (from, length, floats) = (samples.as_ptr(), samples.len(), work.len());
    let (room, mut text, mut count, mut given) = (work.as_mut_ptr(), [0; 32], 0, 0);
    let answer = unsafe {
        vaikelomu_read(
            from, length, side, side, channels, 0, &[0; 32], room, floats, &mut text, &mut count,
            &mut given,
        )
    };
    assert_eq!(answer, 0);
    String::from_utf8_lossy(&text[..count]).into_owned()
}

/// A text written into a square picture, again in each run, and read from the result. The Rust is handed its container and
/// hands it back; the work area is lent as large as each call needs.
fn marks(runs: usize, side: usize, channels: usize) {
    let picture = Picture { width: side, height: side, channels };
    let mut ours = samples(Kind::Grain, picture, 9);
    let mut rust = Some(container(side, channels, ours.clone()));
    let mut work = vec![0.0f32; work_to_write(side)];
    let length = ours.len();
    row_of_bytes(
        &format!("write, {side} x {side} x {channels}"),
        length,
        runs,
        || write_ours(&mut ours, side, channels, &mut work),
        || rust = Some(embed_resilient(rust.take().expect("one"), TEXT).expect("it is taken")),
    );
    let image = rust.expect("one");
    let (mut mine, mut theirs) = (String::new(), String::new());
    row_of_bytes(
        &format!("read, {side} x {side} x {channels}"),
        length,
        runs,
        || mine = read_ours(&ours, side, channels, &mut work[..work_to_read(side)]),
        || theirs = extract_resilient(&image).expect("it is there"),
    );
    assert!(ours == samples_of(image), "write, {side} x {side} x {channels}");
    assert_eq!(mine, TEXT);
    assert_eq!(theirs, TEXT);
}

/// The most memory that this process has held since `forget_peak`, in MiB, as Linux counts it.
fn peak() -> usize {
    let status = std::fs::read_to_string("/proc/self/status").expect("Linux");
    let line = status.lines().find(|line| line.starts_with("VmHWM:")).expect("a peak");
    line.split_whitespace().nth(1).expect("a number").parse::<usize>().expect("KiB") / 1_024
}

fn forget_peak() {
    std::fs::write("/proc/self/clear_refs", "5").expect("Linux");
}

/// Writes into or reads from a picture once and prints the peak; the picture stands ready before.
fn once(who: &str, call: &str, side: usize, channels: usize) {
    let picture = Picture { width: side, height: side, channels };
    let mut pixels = samples(Kind::Grain, picture, 9);
    if call == "read" {
        write_ours(&mut pixels, side, channels, &mut vec![0.0; work_to_write(side)]);
    }
    match (who, call) {
        ("ours", "write") => {
            forget_peak();
            write_ours(&mut pixels, side, channels, &mut vec![0.0; work_to_write(side)]);
        }
        ("ours", _) => {
            forget_peak();
            read_ours(&pixels, side, channels, &mut vec![0.0; work_to_read(side)]);
        }
        (_, "write") => {
            let image = container(side, channels, pixels);
            forget_peak();
            black_box(embed_resilient(image, TEXT).expect("it is taken"));
        }
        _ => {
            let image = container(side, channels, pixels);
            forget_peak();
            black_box(extract_resilient(&image).expect("it is there"));
        }
    }
    println!("{}", peak());
}

/// The peak of another process of this program, which calls `once`.
fn peak_of(who: &str, call: &str, side: usize, channels: usize) -> usize {
    let program = std::env::current_exe().expect("this program");
    let words = ["once", who, call, &side.to_string(), &channels.to_string()];
    let said = Command::new(program).args(words).output().expect("it runs");
    let said = String::from_utf8(said.stdout).expect("a number");
    said.trim().parse().expect("MiB")
}

fn memory_rows() {
    println!("{:<40} {:>10} {:>10} {:>8}", "peak memory", "ours MiB", "Rust MiB", "ratio");
    for channels in [3, 4] {
        for call in ["write", "read"] {
            for side in [512, 2_048, 4_096, 8_192] {
                let name = format!("{call}, {side} x {side} x {channels}");
                let ours = peak_of("ours", call, side, channels);
                let rust = peak_of("Rust", call, side, channels);
                println!("{name:<40} {ours:>10} {rust:>10} {:>8.2}", ours as f64 / rust as f64);
            }
        }
    }
}

/// The damaged block votes of records; the Rust is put together from its parts, since it has no function for it.
fn votes(runs: usize) {
    let mut random = Random::new(10);
    let record = resilient::record(TEXT.as_bytes(), None).expect("it fits");
    let sets: Vec<[f32; 1_024]> = (0..200).map(|_| damaged_blocks(&mut random, &record)).collect();
    let (mut ours, mut rust) = (vec![String::new(); 200], vec![String::new(); 200]);
    row(
        "read votes, 200 sets",
        runs,
        || {
            for (votes, said) in sets.iter().zip(&mut ours) {
                let (mut text, mut length, mut given) = ([0; 32], 0, 0);
                let (from, count) = (votes.as_ptr(), votes.len());
                unsafe {
                    vaikelomu_read_votes(
                        from,
                        count,
                        0,
                        &[0; 32],
                        &mut text,
                        &mut length,
                        &mut given,
                    )
                };
                *said = String::from_utf8_lossy(&text[..length]).into_owned();
            }
        },
        || {
            for (votes, said) in sets.iter().zip(&mut rust) {
                *said = resilient::read_votes(votes, None).unwrap_or_default();
            }
        },
    );
    assert_eq!(ours, rust);
}

fn stage_rows(runs: usize) {
    round_to_u8(runs);
    checksums(runs, 1 << 24, 1);
    checksums(runs, 46, 10_000);
    keystreams(runs, 1 << 24, 1);
    keystreams(runs, 37, 10_000);
    encoder(runs);
    decoder(runs);
    transforms(runs);
    planes(runs, 512);
    planes(runs, 2_048);
    planes(runs.div_ceil(3), 8_192);
    changes(runs, 512);
    changes(runs, 2_048);
    changes(runs.div_ceil(3), 8_192);
}

fn mark_rows(runs: usize) {
    for channels in [3, 4] {
        marks(runs, 512, channels);
        marks(runs, 2_048, channels);
        marks(runs.div_ceil(3), 4_096, channels);
        marks(runs.div_ceil(5), 8_192, channels);
    }
    votes(runs);
}

fn main() {
    let words: Vec<String> = std::env::args().skip(1).collect();
    if let [first, who, call, side, channels] = words.as_slice()
        && first == "once"
    {
        let number = |word: &String| word.parse().expect("a number");
        return once(who, call, number(side), number(channels));
    }
    let runs = words.first().map_or(15, |runs| runs.parse().expect("a number of runs"));
    let part = words.get(1).map_or("all", String::as_str);
    if part == "memory" {
        return memory_rows();
    }
    print!("{:<40} {:>10} {:>10} {:>8}", "stage", "ours ms", "Rust ms", "ratio");
    println!(" {:>10} {:>10}", "ours MB/s", "Rust MB/s");
    if part != "marks" {
        stage_rows(runs);
    }
    if part != "stages" {
        mark_rows(runs);
    }
    if part == "all" {
        memory_rows();
    }
}
