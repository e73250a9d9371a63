//! Writes the lists that the gate's replay programs hold ours to: `vectors FOLDER RUSTC`.
//!
//! FOLDER gets a folder for each replay program, and RUSTC is the release that is named in each list.

use std::fs;
use std::path::Path;

use judge::picture::{KINDS, Picture, samples};
use judge::random::Random;
use judge::soft::{damaged, sure, votes};
use judge::{crc32, edges, hex, marks, orders, records, shuffles, stages, texts};

/// A replay program reads a list whole into a buffer of this size.
const LARGEST: usize = 256 * 1_024;

/// A list of cases, a line each.
struct List {
    program: &'static str,
    name: &'static str,
    about: &'static str,
    lines: Vec<String>,
}

impl List {
    fn text(&self, rustc: &str) -> String {
        let about = self.about.replace('\n', "\n# ");
        let cases = self.lines.join("\n");
        format!("# {}: {about}\n# Made by oracle/vectors with {rustc}.\n{cases}\n", self.name)
    }

    fn write(&self, folder: &Path, rustc: &str) -> std::io::Result<()> {
        let text = self.text(rustc);
        assert!(text.len() < LARGEST, "{} has {} bytes", self.name, text.len());
        let data = folder.join(self.program).join("data");
        fs::create_dir_all(&data)?;
        fs::write(data.join(format!("{}.txt", self.name)), text)?;
        println!("{} {}: {} cases", self.program, self.name, self.lines.len());
        Ok(())
    }
}

/// A NaN is written as the one NaN of each width, since a NaN counts as a NaN.
fn single(value: f32) -> String {
    let value = if value.is_nan() { f32::NAN } else { value };
    format!("{:08x}", value.to_bits())
}

fn double(value: f64) -> String {
    let value = if value.is_nan() { f64::NAN } else { value };
    format!("{:016x}", value.to_bits())
}

fn of_singles(patterns: Vec<u32>, answer: impl Fn(f32) -> String) -> Vec<String> {
    patterns
        .into_iter()
        .map(|bits| format!("{bits:08x} {}", answer(f32::from_bits(bits))))
        .collect()
}

fn of_doubles(patterns: Vec<u64>, answer: impl Fn(f64) -> String) -> Vec<String> {
    patterns
        .into_iter()
        .map(|bits| format!("{bits:016x} {}", answer(f64::from_bits(bits))))
        .collect()
}

/// Both zeros, numbers of every size, infinities and a NaN.
const EDGES: [f32; 15] = [
    0.0,
    -0.0,
    1e-45,
    -1e-45,
    f32::MIN_POSITIVE,
    0.25,
    0.5,
    -0.5,
    1.0,
    -1.0,
    1.5,
    f32::MAX,
    f32::INFINITY,
    f32::NEG_INFINITY,
    f32::NAN,
];

/// Each two of the edges, but for zeros of two signs, of which the Rust leaves open which it gives.
fn of_pairs(answer: impl Fn(f32, f32) -> String) -> Vec<String> {
    let open = |a: f32, b: f32| a == 0.0 && b == 0.0 && a.to_bits() != b.to_bits();
    let pairs = EDGES.into_iter().flat_map(|a| EDGES.map(|b| (a, b)));
    pairs.filter(|&(a, b)| !open(a, b)).map(|(a, b)| answer(a, b)).collect()
}

fn single_lists() -> Vec<List> {
    let list = |name, about, lines| List { program: "replay_float", name, about, lines };
    vec![
        list(
            "round_f32",
            "an f32 and its round(), halves away from zero.",
            of_singles(edges::singles(), |value| single(value.round())),
        ),
        list(
            "floor_f32",
            "an f32 and its floor().",
            of_singles(edges::singles(), |value| single(value.floor())),
        ),
        list(
            "round_to_u8",
            "an f32 and the sample round().clamp(0.0, 255.0) as u8.",
            of_singles(edges::samples(), |value| {
                format!("{:02x}", value.round().clamp(0.0, 255.0) as u8)
            }),
        ),
        list(
            "in_unit",
            "an f32 and 1 where it is a number from -1 to 1, else 0.",
            of_singles(edges::singles(), |value| {
                u8::from((-1.0..=1.0).contains(&value)).to_string()
            }),
        ),
        list(
            "f32_from_bits",
            "32 bits and the f32 that they are; every NaN is written as 7fc00000.",
            of_singles(edges::singles(), single),
        ),
        list(
            "min_f32",
            "two f32 and their min().",
            of_pairs(|a, b| format!("{} {} {}", single(a), single(b), single(a.min(b)))),
        ),
    ]
}

fn double_lists() -> Vec<List> {
    let list = |name, about, lines| List { program: "replay_float", name, about, lines };
    vec![
        list(
            "floor_f64_to_i64",
            "an f64 and its floor() as i64, in two's complement.",
            of_doubles(edges::doubles(), |value| format!("{:016x}", value.floor() as i64)),
        ),
        list(
            "ceil_f64_to_i64",
            "an f64 and its ceil() as i64, in two's complement.",
            of_doubles(edges::doubles(), |value| format!("{:016x}", value.ceil() as i64)),
        ),
        list(
            "abs_f64",
            "an f64 and its abs().",
            of_doubles(edges::doubles(), |value| double(value.abs())),
        ),
        list(
            "narrow_f64",
            "an f64 and the same as f32, ties to even; every NaN is written as 7fc00000.",
            of_doubles(edges::narrowing(), |value| single(value as f32)),
        ),
        list(
            "max_f64",
            "two f64 and their max().",
            of_pairs(|a, b| {
                let (a, b) = (f64::from(a), f64::from(b));
                format!("{} {} {}", double(a), double(b), double(a.max(b)))
            }),
        ),
    ]
}

/// A message of each length, by chance, and its checksum.
fn checksums(lengths: std::ops::RangeInclusive<usize>) -> Vec<String> {
    lengths
        .map(|length| {
            let message = Random::new(length as u64).bytes(length);
            format!("{} {:08x}", hex::of_bytes(&message), crc32(&message))
        })
        .collect()
}

/// The check value of CRC-32, and messages of 0 to 300 bytes.
fn crc32_lists() -> Vec<List> {
    let about = "a message and its CRC-32, low bit first.\n\
                 The answers are those of the stand-in, which oracle/check-stand-ins holds to zlib's.";
    let check = format!("{} {:08x}", hex::of_bytes(b"123456789"), crc32(b"123456789"));
    let lines = std::iter::once(check).chain(checksums(0..=300)).collect();
    vec![List { program: "replay_crc32", name: "crc32", about, lines }]
}

/// Records of all kinds: each bit alone, all bits, and by chance.
fn records() -> Vec<[u8; 46]> {
    let mut records = vec![[0; 46], [0xff; 46]];
    for bit in [0, 1, 7, 8, 100, 183, 366, 367] {
        let mut record = [0; 46];
        record[bit / 8] = 0x80 >> (bit % 8);
        records.push(record);
    }
    let mut random = Random::new(46);
    records.extend((0..40).map(|_| random.array::<46>()));
    records
}

/// Coded bits eight to a byte, the first in the high bit, and four zeros behind the last.
fn packed(coded: &[u8; 748]) -> Vec<u8> {
    coded
        .chunks(8)
        .map(|bits| bits.iter().enumerate().map(|(place, bit)| bit << (7 - place)).sum())
        .collect()
}

fn floats(values: &[f32]) -> String {
    values.iter().map(|&value| single(value)).collect()
}

fn decoded(soft: &[f32; 748]) -> String {
    let record = hex::of_bytes(&stages::decode(soft));
    format!("{} {record} {}", floats(soft), single(stages::final_metric(soft)))
}

/// Clean words, damaged ones, and votes of every kind.
fn decodings() -> Vec<String> {
    let mut random = Random::new(748);
    let mut lines = Vec::new();
    for record in records().into_iter().take(8) {
        lines.push(decoded(&stages::encode(&record).map(sure)));
        lines.push(decoded(&damaged(&mut random, &record)));
    }
    lines.extend((0..24).map(|case| decoded(&votes(&mut random, case))));
    lines
}

fn code_lists() -> Vec<List> {
    let list = |name, about, lines| List { program: "replay_code", name, about, lines };
    vec![
        list(
            "encode",
            "a record of 46 bytes and its 748 coded bits, eight to a byte, four zeros behind the last.",
            records()
                .iter()
                .map(|record| {
                    let coded = packed(&stages::encode(record));
                    format!("{} {}", hex::of_bytes(record), hex::of_bytes(&coded))
                })
                .collect(),
        ),
        list(
            "decode",
            "748 votes, the record decoded, and the metric with which state 0 ended.",
            decodings(),
        ),
    ]
}

/// The sixteen numbers of each group of four blocks.
fn dithers() -> Vec<String> {
    let groups = stages::dither();
    let line = |(group, numbers): (usize, &[f32])| format!("{group:08x} {}", floats(numbers));
    groups.chunks_exact(16).enumerate().map(line).collect()
}

fn layout_lists() -> Vec<List> {
    let list = |name, about, lines| List { program: "replay_layout", name, about, lines };
    vec![
        list(
            "layout",
            "the layout's key and its 1,024 blocks, two bytes each.",
            shuffles::layout(),
        ),
        list("dither", "a group of four blocks and its sixteen numbers, f32.", dithers()),
        list(
            "shuffle",
            "a key, len and count of eight bytes, and room of two; then the number of entries and every\n\
             place of the room, two bytes each. The count is cut to the room, and a len above 4096 gives\n\
             no entries.",
            shuffles::cases(),
        ),
        list(
            "accepted",
            "a number drawn and a range, eight bytes each, and 1 where the number lies below the largest\n\
             multiple of the range that is at most 2^64, else 0. The Rust has no function for a single draw:\n\
             the answers are computed in oracle/judge/src/shuffles.rs.",
            shuffles::accepted(),
        ),
    ]
}

fn utf8_lists() -> Vec<List> {
    let list = |name, about, lines| List { program: "replay_utf8", name, about, lines };
    vec![
        list(
            "short",
            "all strings of one byte and of two. Line 1 has those of one byte, line 2 + b those of two\n\
             that start with b, two bits each for the last byte: the first word is 00-1f, lowest bits\n\
             first. Of the two bits, 1 is what std::str::from_utf8 says, and 2 the check on writing.",
            texts::short(),
        ),
        list(
            "edges",
            "the edges of RFC 3629, cut short and among ASCII, and the two answers: 1 where\n\
             std::str::from_utf8 takes the bytes, and 2 more where the check on writing does.",
            texts::edges(),
        ),
        list(
            "neighbours",
            "three and four bytes, each beside an edge of RFC 3629, and the answers as in edges.",
            texts::neighbours(),
        ),
    ]
}

/// Blocks of one value, among them both zeros and what is not finite.
fn constant_blocks() -> Vec<[f32; 64]> {
    let values = [
        0.0,
        -0.0,
        1.0,
        127.5,
        -255.0,
        f32::MIN_POSITIVE,
        -1e-45,
        1e30,
        f32::MAX,
        f32::NEG_INFINITY,
        f32::NAN,
    ];
    values.map(|value| [value; 64]).to_vec()
}

/// Blocks as the plane has them, blocks of every kind of `votes`, and constant ones.
fn blocks() -> Vec<[f32; 64]> {
    let mut random = Random::new(64);
    let mut blocks = constant_blocks();
    blocks.extend((0..16).map(|case| votes(&mut random, case)));
    blocks.extend((0..16).map(|_| votes(&mut random, 0).map(|unit: f32| 127.5 * unit + 127.5)));
    blocks
}

/// A block to be marked: where it stands, its values and its bit.
struct Case {
    number: usize,
    values: [f32; 64],
    bit: u8,
}

impl Case {
    /// The values, the block's four dither numbers and the bit, 273 bytes.
    fn operand(&self) -> Vec<u8> {
        let dither = &stages::dither()[4 * self.number..4 * self.number + 4];
        hex::to_bytes(&format!("{}{}{:02x}", floats(&self.values), floats(dither), self.bit))
            .expect("digits")
    }
}

fn cases() -> Vec<Case> {
    let case = |(case, values)| Case { number: 23 * case + 5, values, bit: (case % 2) as u8 };
    blocks().into_iter().enumerate().map(case).collect()
}

/// How many cases show an exchange of operations, where chance alone gives none.
const TELLING: usize = 6;

/// A block of small values, whose coefficients have bits enough to show how they are added.
fn small_case(random: &mut Random, number: usize) -> Case {
    let size = [0.5, 1.0, 2.0, 4.0][random.below(4) as usize];
    Case { number, values: votes(random, 0).map(|unit: f32| size * unit), bit: 1 }
}

/// A block whose coefficients lie about half-way between two that stand for its bit, so that the last bit decides.
fn halfway_case(random: &mut Random, number: usize) -> Case {
    let dither = stages::dither();
    let mut values = [0.0; 64];
    for (k, place) in [9, 10, 17, 18].into_iter().enumerate() {
        let whole = random.below(6) as f32 - 3.0;
        let off = (random.below(9) as f32 - 4.0) / 16_777_216.0;
        values[place] = 16.0 * (dither[4 * number + k] + whole + off);
    }
    stages::inverse(&mut values);
    Case { number, values, bit: 1 }
}

/// Blocks that show an exchange which too few of the others show.
fn telling_cases(list: &str) -> Vec<Case> {
    let mut random = Random::new(1_024);
    let candidates = (0..4_096).flat_map(|case| {
        let number = case % 1_024;
        [small_case(&mut random, number), halfway_case(&mut random, number)]
    });
    let candidates: Vec<Case> = candidates.collect();
    let there: Vec<Vec<u8>> = cases().iter().map(Case::operand).collect();
    let picked = orders::telling(list, &there, candidates.iter().map(Case::operand), TELLING);
    candidates.into_iter().filter(|case| picked.contains(&case.operand())).collect()
}

/// A plane with the block in its place and nothing else.
fn plane_of(case: &Case) -> Vec<f32> {
    let mut plane = vec![0.0; 256 * 256];
    stages::store_block(&mut plane, case.number, &case.values);
    plane
}

/// What the Rust's `embed_bits` leaves of the block.
fn marked(case: &Case) -> String {
    let mut plane = plane_of(case);
    stages::embed_bits(&mut plane, &[case.bit; 1_024]);
    let after = stages::load_block(&plane, case.number);
    format!("{} {}", hex::of_bytes(&case.operand()), floats(&after))
}

/// What the Rust's `block_soft` says of the block.
fn voted(case: &Case) -> String {
    let soft = stages::block_soft(&plane_of(case));
    format!("{} {}", hex::of_bytes(&case.operand()), single(soft[case.number]))
}

/// The four corners, and a block in each line of blocks, of which each stands in another column.
fn places() -> Vec<usize> {
    let lines = (0..32).map(|line| 32 * line + (5 * line + 3) % 32);
    [0, 31, 992, 1_023].into_iter().chain(lines).collect()
}

/// A plane in which place p holds p.
fn numbered() -> Vec<f32> {
    (0..256 * 256).map(|place| place as f32).collect()
}

fn loaded(block: usize) -> String {
    format!("{block:04x} {}", floats(&stages::load_block(&numbered(), block)))
}

/// Where the values -1, -2 and so on to -64 stand once they are stored, where no other place has changed.
fn stored(block: usize) -> String {
    let mut plane = numbered();
    let values = std::array::from_fn(|index| -1.0 - index as f32);
    stages::store_block(&mut plane, block, &values);
    let changed = plane.iter().zip(numbered()).filter(|(now, before)| **now != *before).count();
    assert_eq!(changed, 64, "one place for each value");
    let place = |value: &f32| plane.iter().position(|now| now == value).expect("a place");
    let places: String = values.iter().map(|value| format!("{:04x}", place(value))).collect();
    format!("{block:04x} {places}")
}

fn transformed(transform: fn(&mut [f32; 64])) -> Vec<String> {
    blocks()
        .into_iter()
        .map(|block| {
            let mut after = block;
            transform(&mut after);
            format!("{} {}", floats(&block), floats(&after))
        })
        .collect()
}

fn block_lists() -> Vec<List> {
    let list = |name, about, lines| List { program: "replay_block", name, about, lines };
    let marked = cases().iter().chain(&telling_cases("mark")).map(marked).collect();
    let votes = cases().iter().chain(&telling_cases("vote")).map(voted).collect();
    vec![
        list("forward", "64 f32 and their transform.", transformed(stages::forward)),
        list(
            "inverse",
            "64 f32 and the block whose transform they are.",
            transformed(stages::inverse),
        ),
        list(
            "mark",
            "64 f32, four dither numbers and a bit; then the 64 transformed, marked and transformed back.",
            marked,
        ),
        list(
            "vote",
            "64 f32, four dither numbers and a byte that is not used; then the vote.",
            votes,
        ),
        list(
            "load",
            "a block, two bytes; its 64 values out of a plane in which place p holds p, f32.",
            places().into_iter().map(loaded).collect(),
        ),
        list(
            "store",
            "a block, two bytes; where its values stand once stored, two bytes each.",
            places().into_iter().map(stored).collect(),
        ),
    ]
}

/// Sizes on both sides of the plane's, the least and the most, and some by chance: source, output, output number.
fn windows() -> Vec<(usize, usize, usize)> {
    let sides = [1, 2, 3, 5, 7, 100, 255, 256, 257, 511, 512, 513, 1_000, 4_096, 8_191, 8_192];
    let mut pairs: Vec<(usize, usize)> = sides.iter().map(|&side| (side, 256)).collect();
    pairs.extend(sides.iter().filter(|&&side| side > 256).map(|&side| (256, side)));
    let mut random = Random::new(256);
    pairs.extend((0..20).map(|_| (1 + random.below(8_192) as usize, 256)));
    pairs.extend((0..20).map(|_| (256, 512 + random.below(7_681) as usize)));
    let mut windows = Vec::new();
    for (src, dst) in pairs {
        let any = random.below(dst as u64) as usize;
        windows.extend([0, 1, any, dst - 1].map(|i| (src, dst, i)));
    }
    windows
}

fn window(&(src, dst, i): &(usize, usize, usize)) -> String {
    let window = stages::window(src, dst, i);
    let parts =
        [window.first as f64, window.last as f64, window.center, window.support, window.sum];
    format!("{src:04x}{dst:04x}{i:04x} {}", parts.map(double).concat())
}

/// The first and the last number and their neighbours, and some between.
fn weights(&(src, dst, i): &(usize, usize, usize)) -> Vec<String> {
    let around = stages::weights_around(src, dst, i);
    let last = around.len() - 1;
    let mut places = vec![0, 1, last / 2, last - 1, last];
    places.dedup();
    let line = |place: usize| {
        let (j, weight) = around[place];
        let found = u8::from(weight.is_some());
        let weight = single(weight.unwrap_or(0.0));
        format!("{src:04x}{dst:04x}{i:04x}{} {found:02x}{weight}", double(j as f64))
    };
    places.into_iter().map(line).collect()
}

/// Every colour of channels that are 0, 1, 127, 128, 254 or 255, the primaries among them, and others by chance.
fn colours() -> Vec<[u8; 3]> {
    const CHANNEL: [u8; 6] = [0, 1, 127, 128, 254, 255];
    let pairs = CHANNEL.iter().flat_map(|&red| CHANNEL.map(|green| (red, green)));
    let mut colours: Vec<[u8; 3]> =
        pairs.flat_map(|(red, green)| CHANNEL.map(|blue| [red, green, blue])).collect();
    let mut random = Random::new(24);
    colours.extend((0..296).map(|_| random.array::<3>()));
    colours
}

/// The luma of a row of 64 pixels at most. A fourth channel is by chance.
fn luma_row(colours: &[[u8; 3]], channels: usize) -> String {
    let mut random = Random::new(colours.len() as u64);
    let pixel = |colour: &[u8; 3]| [colour, &random.bytes(channels - 3)[..]].concat();
    let row: Vec<u8> = colours.iter().flat_map(pixel).collect();
    format!("{channels:02x}{} {}", hex::of_bytes(&row), floats(&stages::luma(&row, channels)))
}

/// The colours in rows of 64, and rows of each length from 1 to 9.
fn luma_rows() -> Vec<String> {
    let colours = colours();
    let mut rows: Vec<&[[u8; 3]]> = colours.chunks(64).collect();
    rows.extend((1..10).map(|length| &colours[colours.len() - length..]));
    (3..5).flat_map(|channels| rows.iter().map(move |row| luma_row(row, channels))).collect()
}

/// A few samples, repeated as often as the picture needs.
fn repeated(pattern: &[u8], picture: Picture) -> Vec<u8> {
    let length = picture.width * picture.height * picture.channels;
    pattern.iter().copied().cycle().take(length).collect()
}

/// 64 values of the plane of a picture that repeats the pattern.
fn plane_part(picture: Picture, place: usize, pattern: &[u8]) -> String {
    let Picture { width, height, channels } = picture;
    let plane = stages::plane(&repeated(pattern, picture), channels, width, height);
    let pattern = hex::of_bytes(pattern);
    let operand = format!("{width:04x}{height:04x}{channels:02x}{place:04x}{pattern}");
    format!("{operand} {}", floats(&plane[place..place + 64]))
}

/// A part of the plane of a small picture, all of whose samples are stored.
fn small_part(case: usize, width: usize, height: usize) -> String {
    let picture = Picture { width, height, channels: 3 + case % 2 };
    let place = 64 * ((case * 389 + 1_023 * (case % 3)) % 1_024);
    let (_, kind) = KINDS[case % KINDS.len()];
    plane_part(picture, place, &samples(kind, picture, case as u64))
}

/// Three parts of the plane of a tall or wide picture, or a large one, which repeats a few samples: its first values,
/// its last, and some between.
fn long_parts((width, height, channels): (usize, usize, usize)) -> Vec<String> {
    let mut random = Random::new((width + height + channels) as u64);
    let pattern = random.bytes(251);
    let places = [0, 65_536 - 64, 64 * random.below(1_024) as usize];
    let part = |place| plane_part(Picture { width, height, channels }, place, &pattern);
    places.map(part).to_vec()
}

/// Sides of 1 to 9, sides about the plane's beside short ones, and sides up to the longest, for whose samples the replay
/// program has room.
fn plane_parts() -> Vec<String> {
    let small = (1..10).flat_map(|width| (1..10).map(move |height| (width, height)));
    let long = [
        (255, 1),
        (256, 1),
        (257, 1),
        (1, 255),
        (1, 256),
        (1, 257),
        (256, 2),
        (2, 257),
        (255, 3),
        (3, 256),
        (257, 3),
        (512, 2),
    ];
    let longer = [
        (1, 511),
        (1, 512),
        (1, 513),
        (1, 1_021),
        (1, 2_048),
        (1, 8_191),
        (1, 8_192),
        (3, 8_192),
        (31, 8_192),
        (513, 3),
        (1_021, 1),
        (2_048, 2),
        (8_191, 1),
        (8_192, 1),
        (8_192, 3),
        (8_192, 31),
        (512, 512),
    ];
    let pictures = small.chain(long).enumerate();
    let mut parts: Vec<String> =
        pictures.map(|(case, (width, height))| small_part(case, width, height)).collect();
    for (width, height) in longer {
        parts.extend((3..5).flat_map(|channels| long_parts((width, height, channels))));
    }
    parts
}

/// A change put onto a picture, and 64 samples of it to look at. Both repeat a few values, so that a line is short.
struct Change {
    picture: Picture,
    place: usize,
    values: Vec<f32>,
    pattern: Vec<u8>,
}

impl Change {
    fn operand(&self) -> Vec<u8> {
        let Picture { width, height, channels } = self.picture;
        let (place, count, values) = (self.place, self.values.len(), floats(&self.values));
        let pattern = hex::of_bytes(&self.pattern);
        let digits =
            format!("{width:04x}{height:04x}{channels:02x}{place:08x}{count:02x}{values}{pattern}");
        hex::to_bytes(&digits).expect("digits")
    }

    fn line(&self) -> String {
        let Picture { width, height, channels } = self.picture;
        let change: Vec<f32> = self.values.iter().copied().cycle().take(256 * 256).collect();
        let mut bytes = repeated(&self.pattern, self.picture);
        stages::change(&mut bytes, channels, width, height, &change);
        let after = hex::of_bytes(&bytes[self.place..self.place + 64]);
        format!("{} {after}", hex::of_bytes(&self.operand()))
    }
}

fn change(case: usize, width: usize, height: usize, channels: usize) -> Change {
    const STEPS: [f32; 6] = [0.5, 8.0, 300.0, 0.001, 4e37, 64.0];
    let mut random = Random::new(case as u64);
    let step = STEPS[case % STEPS.len()];
    let values: Vec<f32> = (0..37).map(|_| (random.below(17) as f32 - 8.0) * step / 8.0).collect();
    let pattern = random.bytes(251);
    let length = width * height * channels;
    let place = [0, length - 64, random.below(length as u64 - 64) as usize][case % 3];
    Change { picture: Picture { width, height, channels }, place, values, pattern }
}

/// A black picture, and a change so near a half that the last bit of a sum decides how it is rounded; at the first row, at
/// the last, or where one row ends and the next begins.
fn narrow_change(case: u64) -> Change {
    let mut random = Random::new(case);
    let [width, height] = [(); 2].map(|()| 257 + random.below(256) as usize);
    let channels = 3 + random.below(2) as usize;
    let half = 0.5 + random.below(4) as f32;
    let values = (0..37).map(|_| f32::from_bits(half.to_bits() - 8 + random.below(17) as u32));
    let values = values.collect();
    let row = width * channels;
    let place = [0, row * height - 64, row * (1 + random.below(200) as usize) - 32];
    let place = place[case as usize % 3];
    Change { picture: Picture { width, height, channels }, place, values, pattern: vec![0] }
}

/// Pictures no smaller than the plane, and no larger than the replay program has room for: 512 x 512. Then those that show an
/// exchange of operations.
fn change_parts() -> Vec<String> {
    let three = [256, 257, 263, 288, 307, 331, 341];
    let pairs = three.iter().flat_map(|&width| three.map(|height| (width, height, 3)));
    let pictures = pairs.filter(|(width, height, channels)| width * height * channels <= 262_144);
    let four = [(256, 256, 4); 8];
    let large = [(512, 300), (300, 512), (511, 509), (512, 512), (512, 512)];
    let large = large.into_iter().flat_map(|(width, height)| [3, 4].map(|n| (width, height, n)));
    let pictures = pictures.chain(four).chain(large).enumerate();
    let change = |(case, (width, height, channels))| change(case, width, height, channels);
    let mut changes: Vec<Change> = pictures.map(change).collect();
    let there: Vec<Vec<u8>> = changes.iter().map(Change::operand).collect();
    let candidates = || (0..4_096).map(narrow_change);
    let picked =
        orders::telling("change", &there, candidates().map(|change| change.operand()), TELLING);
    changes.extend(candidates().filter(|change| picked.contains(&change.operand())));
    changes.iter().map(Change::line).collect()
}

fn resample_lists() -> Vec<List> {
    let list = |name, about, lines| List { program: "replay_resample", name, about, lines };
    let windows = windows();
    vec![
        list(
            "window",
            "source size, output size and output number, two bytes each; first and last source number,\n\
             centre, support and sum, each as f64.",
            windows.iter().map(window).collect(),
        ),
        list(
            "weight",
            "the same and a source number, as f64; 1 and its weight, f32, or zeros where it has none.",
            windows.iter().flat_map(weights).collect(),
        ),
        list(
            "luma",
            "channels and the samples of a row; the luma of its pixels, f32.",
            luma_rows(),
        ),
        list(
            "plane",
            "width and height, two bytes each, channels, a place in the plane, two bytes, and the samples, repeated\n\
             as often as needed; 64 values of the plane from this place on, f32.",
            plane_parts(),
        ),
        list(
            "change",
            "width and height, two bytes each, channels, a place in the samples, four bytes, how many values, the\n\
             values of the change, f32, and the samples, both repeated as often as needed; 64 samples from this place on.",
            change_parts(),
        ),
    ]
}

fn record_lists() -> Vec<List> {
    let list = |name, about, lines| List { program: "replay_record", name, about, lines };
    vec![
        list(
            "build",
            "text, key, salt; refusal (0 for none), number given, and the record, zeros where refused.",
            records::built(),
        ),
        list(
            "parse",
            "record, key; refusal (0 for none), number given, length, and the text with zeros after it.",
            records::parsed(),
        ),
    ]
}

fn resilient_lists() -> Vec<List> {
    let about = "channels of a 512 x 512 picture, text, key, salt; refusal (0 for none), number given, CRC-32 of the\n\
                 samples after it; then the key to read with, refusal, number given. No refusal: the text is read.";
    vec![List { program: "replay_resilient", name: "marks", about, lines: marks::lines() }]
}

fn main() -> std::io::Result<()> {
    let words: Vec<String> = std::env::args().skip(1).collect();
    let [folder, rustc] = &words[..] else {
        eprintln!("vectors: FOLDER RUSTC");
        std::process::exit(2);
    };
    let mut lists = single_lists();
    lists.extend(double_lists());
    lists.extend(crc32_lists());
    lists.extend(utf8_lists());
    lists.extend(record_lists());
    lists.extend(layout_lists());
    lists.extend(code_lists());
    lists.extend(block_lists());
    lists.extend(resample_lists());
    lists.extend(resilient_lists());
    for list in lists {
        list.write(Path::new(folder), rustc)?;
    }
    fs::write(Path::new(folder).join("replay_resilient/data/keyed"), marks::locked_bits())
}
