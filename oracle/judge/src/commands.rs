//! One function for each command: arguments and standard input to the answer of the judge.

use judge::picture::{self, KINDS, Picture};
use judge::refusal::Refused;
use judge::{cipher, crc32, hex, resilient, stages};

use crate::arguments::{Arguments, input, input_array, input_floats};

pub enum Answer {
    Bytes(Vec<u8>),
    Line(String),
}

pub enum Failure {
    Refused(Refused),
    Usage(String),
}

impl From<Refused> for Failure {
    fn from(refused: Refused) -> Failure {
        Failure::Refused(refused)
    }
}

type Answered = Result<Answer, Failure>;

pub struct Command {
    pub name: &'static str,
    pub arguments: &'static str,
    pub meaning: &'static str,
    pub run: fn(&mut Arguments) -> Answered,
}

pub const COMMANDS: &[Command] = &[
    Command {
        name: "mark",
        arguments: "WIDTH HEIGHT CHANNELS TEXT [KEY SALT] [--work N] < samples",
        meaning: "The marked samples. N is the number of f32 lent, as many as needed where not given.",
        run: mark,
    },
    Command {
        name: "read",
        arguments: "WIDTH HEIGHT CHANNELS [KEY] [--work N] < samples",
        meaning: "The line `text LENGTH HEX`.",
        run: read,
    },
    Command {
        name: "votes",
        arguments: "< 1,024 f32",
        meaning: "What the scope's program votes prints.",
        run: votes,
    },
    Command {
        name: "record",
        arguments: "TEXT [KEY SALT]",
        meaning: "The 46 bytes in hex.",
        run: record,
    },
    Command {
        name: "parse",
        arguments: "RECORD [KEY]",
        meaning: "The line `text LENGTH HEX`.",
        run: parse,
    },
    Command {
        name: "encode",
        arguments: "RECORD",
        meaning: "The 748 coded bits as digits.",
        run: encode,
    },
    Command {
        name: "decode",
        arguments: "< 748 f32",
        meaning: "The record in hex, and the bits of the metric with which state 0 ends.",
        run: decode,
    },
    Command {
        name: "gather",
        arguments: "< 1,024 f32",
        meaning: "The 748 f32 votes of the coded bits, from those of the blocks.",
        run: gather,
    },
    Command {
        name: "window",
        arguments: "SRC DST I",
        meaning: "First and last source number; centre, support and sum with their bits; then, for each\n      \
                  number with a weight, the number, the same clamped, the weight, and its bits.",
        run: window,
    },
    Command {
        name: "shuffle",
        arguments: "KEY LEN COUNT",
        meaning: "The first COUNT entries, a line each.",
        run: shuffle,
    },
    Command {
        name: "layout",
        arguments: "",
        meaning: "The block of each of the 1,024 places, a line each.",
        run: layout,
    },
    Command { name: "dither", arguments: "", meaning: "The 4,096 f32.", run: dither },
    Command {
        name: "matrix",
        arguments: "",
        meaning: "The bits of the transform's matrix, a line for each row.",
        run: matrix,
    },
    Command {
        name: "forward",
        arguments: "< 64 f32",
        meaning: "The 64 f32 of the block's transform.",
        run: forward,
    },
    Command {
        name: "inverse",
        arguments: "< 64 f32",
        meaning: "The 64 f32 of the transform's block.",
        run: inverse,
    },
    Command {
        name: "luma",
        arguments: "CHANNELS < samples",
        meaning: "An f32 for each pixel.",
        run: luma,
    },
    Command {
        name: "resample",
        arguments: "SRC_WIDTH SRC_HEIGHT DST_WIDTH DST_HEIGHT < f32",
        meaning: "The f32 of the plane in the other size.",
        run: resample,
    },
    Command {
        name: "plane",
        arguments: "WIDTH HEIGHT CHANNELS < samples",
        meaning: "The 65,536 f32 of the picture's plane.",
        run: plane,
    },
    Command {
        name: "embed",
        arguments: "RECORD < 65,536 f32",
        meaning: "The 65,536 f32 of the plane marked with the record.",
        run: embed,
    },
    Command {
        name: "picture-votes",
        arguments: "WIDTH HEIGHT CHANNELS < samples",
        meaning: "The 1,024 f32 votes of the picture's blocks.",
        run: picture_votes,
    },
    Command {
        name: "round",
        arguments: "BITS...",
        meaning: "The bits of round() of each f32, and the sample that it is written as.",
        run: round,
    },
    Command {
        name: "floor",
        arguments: "BITS...",
        meaning: "The bits of floor() of each f32; for an f64 (16 digits), floor and ceiling as i64.",
        run: floor,
    },
    Command {
        name: "narrow",
        arguments: "BITS...",
        meaning: "The bits of each f64 as f32.",
        run: narrow,
    },
    Command { name: "crc32", arguments: "< bytes", meaning: "The CRC-32 in hex.", run: checksum },
    Command {
        name: "chacha20",
        arguments: "KEY NONCE POSITION < bytes",
        meaning: "The bytes with the keystream from byte POSITION on added.",
        run: chacha20,
    },
    Command {
        name: "picture",
        arguments: "KIND WIDTH HEIGHT CHANNELS SEED",
        meaning: "Samples to try things on; KIND is flat, grain, gradient, checkers or noise.",
        run: make_picture,
    },
];

fn floats(values: impl IntoIterator<Item = f32>) -> Answered {
    let bytes = values.into_iter().flat_map(f32::to_le_bytes).collect();
    Ok(Answer::Bytes(bytes))
}

fn lines(lines: impl IntoIterator<Item = String>) -> Answered {
    let lines: Vec<String> = lines.into_iter().collect();
    Ok(Answer::Line(lines.join("\n")))
}

fn mark(arguments: &mut Arguments) -> Answered {
    let picture = arguments.picture()?;
    let text = arguments.bytes("TEXT")?;
    let lock = arguments.lock()?;
    arguments.end()?;
    let marked = resilient::write(&text, lock, picture, &input(), arguments.work)?;
    Ok(Answer::Bytes(marked))
}

fn reading(reading: Result<String, Refused>) -> Answered {
    let text = reading?;
    Ok(Answer::Line(resilient::line(&text)))
}

fn read(arguments: &mut Arguments) -> Answered {
    let picture = arguments.picture()?;
    let key = arguments.key()?;
    arguments.end()?;
    reading(resilient::read(key, picture, &input(), arguments.work))
}

fn votes(arguments: &mut Arguments) -> Answered {
    arguments.end()?;
    reading(resilient::votes(&input()))
}

fn record(arguments: &mut Arguments) -> Answered {
    let text = arguments.bytes("TEXT")?;
    let lock = arguments.lock()?;
    arguments.end()?;
    let record = resilient::record(&text, lock)?;
    Ok(Answer::Line(hex::of_bytes(&record)))
}

fn parse(arguments: &mut Arguments) -> Answered {
    let record = arguments.array("RECORD")?;
    let key = arguments.key()?;
    arguments.end()?;
    reading(resilient::parse(record, key))
}

fn encode(arguments: &mut Arguments) -> Answered {
    let record = arguments.array("RECORD")?;
    arguments.end()?;
    let digits = stages::encode(&record).map(|bit| char::from(b'0' + bit));
    Ok(Answer::Line(digits.iter().collect()))
}

fn decode(arguments: &mut Arguments) -> Answered {
    arguments.end()?;
    let soft = input_array()?;
    let record = hex::of_bytes(&stages::decode(&soft));
    let metric = stages::final_metric(&soft).to_bits();
    Ok(Answer::Line(format!("{record} {metric:08x}")))
}

fn gather(arguments: &mut Arguments) -> Answered {
    arguments.end()?;
    floats(stages::gather(&input_array()?))
}

fn window(arguments: &mut Arguments) -> Answered {
    let src: usize = arguments.number("SRC")?;
    let dst = arguments.number("DST")?;
    let i = arguments.number("I")?;
    arguments.end()?;
    if src == 0 || dst == 0 {
        return Err(Failure::Usage("SRC and DST are at least 1".to_owned()));
    }
    let window = stages::window(src, dst, i);
    let head = [
        format!("first {}", window.first),
        format!("last {}", window.last),
        format!("center {} {:016x}", window.center, window.center.to_bits()),
        format!("support {} {:016x}", window.support, window.support.to_bits()),
        format!("sum {} {:016x}", window.sum, window.sum.to_bits()),
    ];
    let weights = window.weights.iter().map(|&(j, weight)| {
        let clamped = j.clamp(0, src as i64 - 1);
        format!("{j} {clamped} {weight} {:08x}", weight.to_bits())
    });
    lines(head.into_iter().chain(weights))
}

fn shuffle(arguments: &mut Arguments) -> Answered {
    let key = arguments.array("KEY")?;
    let len = arguments.number("LEN")?;
    let count = arguments.number("COUNT")?;
    arguments.end()?;
    lines(stages::shuffle(&key, len, count).iter().map(usize::to_string))
}

fn layout(arguments: &mut Arguments) -> Answered {
    arguments.end()?;
    lines(stages::layout().iter().map(usize::to_string))
}

fn dither(arguments: &mut Arguments) -> Answered {
    arguments.end()?;
    floats(stages::dither())
}

fn matrix(arguments: &mut Arguments) -> Answered {
    arguments.end()?;
    lines(stages::matrix().map(|row| row.map(|value| format!("{:08x}", value.to_bits())).join(" ")))
}

fn forward(arguments: &mut Arguments) -> Answered {
    arguments.end()?;
    let mut block = input_array()?;
    stages::forward(&mut block);
    floats(block)
}

fn inverse(arguments: &mut Arguments) -> Answered {
    arguments.end()?;
    let mut block = input_array()?;
    stages::inverse(&mut block);
    floats(block)
}

/// The samples on standard input, where the scope lets them pass.
fn samples(picture: Picture) -> Result<Vec<u8>, Failure> {
    let samples = input();
    match resilient::samples_refusal(picture, samples.len()) {
        Some(refused) => Err(refused.into()),
        None => Ok(samples),
    }
}

fn luma(arguments: &mut Arguments) -> Answered {
    let channels = arguments.number("CHANNELS")?;
    arguments.end()?;
    if channels != 3 && channels != 4 {
        return Err(Refused::new(5, channels as u64).into());
    }
    let samples = input();
    if !samples.len().is_multiple_of(channels) {
        return Err(Refused::new(6, samples.len() as u64).into());
    }
    floats(stages::luma(&samples, channels))
}

fn resample(arguments: &mut Arguments) -> Answered {
    let src_width: usize = arguments.number("SRC_WIDTH")?;
    let src_height = arguments.number("SRC_HEIGHT")?;
    let dst_width = arguments.number("DST_WIDTH")?;
    let dst_height = arguments.number("DST_HEIGHT")?;
    arguments.end()?;
    let plane = input_floats()?;
    let sides = [src_width, src_height, dst_width, dst_height];
    if sides.contains(&0) || src_width.checked_mul(src_height) != Some(plane.len()) {
        return Err(Failure::Usage("sides are at least 1 and match the input".to_owned()));
    }
    floats(stages::resample(&plane, src_width, src_height, dst_width, dst_height))
}

fn plane(arguments: &mut Arguments) -> Answered {
    let picture = arguments.picture()?;
    arguments.end()?;
    let samples = samples(picture)?;
    floats(stages::plane(&samples, picture.channels, picture.width, picture.height))
}

fn embed(arguments: &mut Arguments) -> Answered {
    let record = arguments.array("RECORD")?;
    arguments.end()?;
    let mut plane = input_array::<65_536>()?;
    stages::embed_bits(&mut plane, &stages::block_bits(&stages::encode(&record)));
    floats(plane)
}

fn picture_votes(arguments: &mut Arguments) -> Answered {
    let picture = arguments.picture()?;
    arguments.end()?;
    let samples = samples(picture)?;
    floats(resilient::picture_votes(picture, &samples))
}

/// A line for each further argument.
fn each(arguments: &mut Arguments, answer: fn(&[u8]) -> Option<String>) -> Answered {
    let mut found = Vec::new();
    while arguments.more() {
        let bits = arguments.bytes("BITS")?;
        match answer(&bits) {
            Some(line) => found.push(line),
            None => {
                return Err(Failure::Usage(format!("{} bytes are not the width", bits.len())));
            }
        }
    }
    lines(found)
}

fn single(bits: &[u8]) -> Option<f32> {
    Some(f32::from_be_bytes(bits.try_into().ok()?))
}

fn double(bits: &[u8]) -> Option<f64> {
    Some(f64::from_be_bytes(bits.try_into().ok()?))
}

fn round(arguments: &mut Arguments) -> Answered {
    each(arguments, |bits| {
        let value = single(bits)?;
        let sample = value.round().clamp(0.0, 255.0) as u8;
        Some(format!("{:08x} {sample}", value.round().to_bits()))
    })
}

fn floor(arguments: &mut Arguments) -> Answered {
    each(arguments, |bits| {
        if let Some(value) = single(bits) {
            return Some(format!("{:08x}", value.floor().to_bits()));
        }
        let value = double(bits)?;
        Some(format!("{} {}", value.floor() as i64, value.ceil() as i64))
    })
}

fn narrow(arguments: &mut Arguments) -> Answered {
    each(arguments, |bits| Some(format!("{:08x}", (double(bits)? as f32).to_bits())))
}

fn checksum(arguments: &mut Arguments) -> Answered {
    arguments.end()?;
    Ok(Answer::Line(format!("{:08x}", crc32(&input()))))
}

fn chacha20(arguments: &mut Arguments) -> Answered {
    let key = arguments.array("KEY")?;
    let nonce = arguments.array("NONCE")?;
    let position = arguments.number("POSITION")?;
    arguments.end()?;
    let mut bytes = input();
    cipher::apply(&key, &nonce, position, &mut bytes)?;
    Ok(Answer::Bytes(bytes))
}

fn make_picture(arguments: &mut Arguments) -> Answered {
    let name = arguments.word("KIND")?;
    let picture = arguments.picture()?;
    let seed = arguments.number("SEED")?;
    arguments.end()?;
    let Some(&(_, kind)) = KINDS.iter().find(|(known, _)| *known == name) else {
        return Err(Failure::Usage(format!("no kind of picture {name}")));
    };
    Ok(Answer::Bytes(picture::samples(kind, picture, seed)))
}
