//! The stages with floats once more, each with one order of its operations exchanged, so that a stored case can be asked
//! whether it would show the exchange. Without one they are the Rust's, to which the stored answers hold them.
//!
//! Orders that no input tells apart are left out: a sum of two, so the order in which a change's two numbers of an axis or a
//! coded bit's two votes are added; a product with a power of two before or after a sum; and of a change the narrowing of its
//! weights, whose tents sum to 1: none of those from 256 to 256..8,192 differs.

use crate::stages;

/// What is exchanged.
#[derive(Debug, Clone, Copy, PartialEq, Eq)]
pub enum Swap {
    Nothing,
    /// The two passes of a transform, or the two axes of a resampling.
    Axes,
    /// A sum from its last number to its first.
    Falling,
    /// A sum of sums of two.
    Pairs,
    /// A sum that starts from +0.0.
    FromPlusZero,
    SubtractHalfFirst,
    SubtractAtOnce,
    AddHalfFirst,
    AddAtOnce,
    FloorFirst,
    RestFromValue,
    GreenAndBlueFirst,
    RedAndBlueFirst,
    SizesFirst,
    HalfApart,
    DivideTentLast,
    NarrowLast,
    HorizontalFalling,
    VerticalFalling,
    HorizontalClampedAtOnce,
    VerticalClampedAtOnce,
    RoundChangeFirst,
    SecondVoteFirst,
    VotesFirst,
}

use Swap::*;

/// The exchanges that a list of a replay program is asked for, and how each reads.
pub const EXCHANGES: [(&str, &str, &[(Swap, &str)]); 10] = [
    (
        "replay_block",
        "forward",
        &[
            (Axes, "columns, then rows"),
            (Falling, "sums of eight in falling order"),
            (Pairs, "sums of eight in pairs"),
            (FromPlusZero, "sums of eight from +0.0"),
        ],
    ),
    (
        "replay_block",
        "inverse",
        &[
            (Axes, "rows, then columns"),
            (Falling, "sums of eight in falling order"),
            (Pairs, "sums of eight in pairs"),
            (FromPlusZero, "sums of eight from +0.0"),
        ],
    ),
    (
        "replay_block",
        "mark",
        &[
            (SubtractHalfFirst, "v/16 - h - u"),
            (SubtractAtOnce, "v/16 - (u + h)"),
            (AddHalfFirst, "round(..) + h + u"),
            (AddAtOnce, "round(..) + (u + h)"),
        ],
    ),
    (
        "replay_block",
        "vote",
        &[
            (FloorFirst, "r = (v/16 - floor x) - u"),
            (RestFromValue, "1 - r as (floor x + 1) - x"),
            (Falling, "the mean's sum in falling order"),
            (Pairs, "the mean's sum in pairs"),
        ],
    ),
    (
        "replay_resample",
        "window",
        &[
            (Falling, "tents summed in falling order"),
            (SizesFirst, "centre as (i + 0.5) x src / dst - 0.5"),
            (HalfApart, "centre as i x scale + (0.5 x scale - 0.5)"),
            (DivideTentLast, "tent as (support - |j - centre|) / support"),
        ],
    ),
    ("replay_resample", "weight", &[(NarrowLast, "divided in f64, then narrowed")]),
    (
        "replay_resample",
        "luma",
        &[
            (GreenAndBlueFirst, "0.299 R + (0.587 G + 0.114 B)"),
            (RedAndBlueFirst, "(0.299 R + 0.114 B) + 0.587 G"),
        ],
    ),
    (
        "replay_resample",
        "plane",
        &[
            (Axes, "columns, then rows"),
            (HorizontalFalling, "rows in falling j"),
            (VerticalFalling, "columns in falling j"),
            (HorizontalClampedAtOnce, "rows: weights of the same clamped j summed first"),
            (VerticalClampedAtOnce, "columns: weights of the same clamped j summed first"),
            (GreenAndBlueFirst, "luma as 0.299 R + (0.587 G + 0.114 B)"),
            (RedAndBlueFirst, "luma as (0.299 R + 0.114 B) + 0.587 G"),
            (NarrowLast, "weights divided in f64, then narrowed"),
        ],
    ),
    (
        "replay_resample",
        "change",
        &[
            (Axes, "columns, then rows"),
            (HorizontalClampedAtOnce, "rows: weights of the same clamped j summed first"),
            (VerticalClampedAtOnce, "columns: weights of the same clamped j summed first"),
            (RoundChangeFirst, "the change rounded, then added"),
        ],
    ),
    (
        "replay_code",
        "decode",
        &[
            (SecondVoteFirst, "(metric + second vote) + first vote"),
            (VotesFirst, "metric + (first vote + second vote)"),
        ],
    ),
];

/// The exchanges of a list.
pub fn of_list(list: &str) -> &'static [(Swap, &'static str)] {
    EXCHANGES.iter().find(|(_, name, _)| *name == list).map_or(&[], |(_, _, swaps)| swaps)
}

/// Of the candidates those that show an exchange of the list, where no more than `most` show it already. Operands of
/// cases that are there are counted too.
pub fn telling(
    list: &str,
    there: &[Vec<u8>],
    candidates: impl Iterator<Item = Vec<u8>>,
    most: usize,
) -> Vec<Vec<u8>> {
    let right = |operand: &Vec<u8>| answer(list, operand, Nothing);
    let shows = |operand: &Vec<u8>, swap: Swap| answer(list, operand, swap) != right(operand);
    let counted = |&(swap, _): &(Swap, &str)| {
        (swap, there.iter().filter(|operand| shows(operand, swap)).count())
    };
    let mut counts: Vec<(Swap, usize)> = of_list(list).iter().map(counted).collect();
    let mut picked = Vec::new();
    for operand in candidates {
        if counts.iter().all(|&(_, count)| count >= most) {
            break;
        }
        let shown: Vec<bool> = counts.iter().map(|&(swap, _)| shows(&operand, swap)).collect();
        if counts.iter().zip(&shown).any(|(&(_, count), &shown)| shown && count < most) {
            counts
                .iter_mut()
                .zip(shown)
                .for_each(|((_, count), shown)| *count += usize::from(shown));
            picked.push(operand);
        }
    }
    picked
}

/// What a stored operand gives, as the list stores it, with one order exchanged.
pub fn answer(list: &str, operand: &[u8], swap: Swap) -> Vec<u8> {
    match list {
        "forward" => bytes(&forward(block(operand), swap)),
        "inverse" => bytes(&inverse(block(operand), swap)),
        "mark" => bytes(&marked(operand, swap)),
        "vote" => bytes(&[vote(operand, swap)]),
        "window" => window_parts(operand, swap),
        "weight" => weight(operand, swap),
        "luma" => bytes(&luma_row(operand, swap)),
        "plane" => bytes(&plane_part(operand, swap)),
        "change" => changed_part(operand, swap),
        "decode" => decoded(operand, swap),
        _ => unreachable!("no list {list}"),
    }
}

/// A NaN is the one NaN of the lists.
fn bytes(values: &[f32]) -> Vec<u8> {
    let bits = |value: &f32| if value.is_nan() { f32::NAN } else { *value }.to_be_bytes();
    values.iter().flat_map(bits).collect()
}

fn floats(raw: &[u8]) -> Vec<f32> {
    raw.as_chunks::<4>().0.iter().map(|&bytes| f32::from_be_bytes(bytes)).collect()
}

fn number(raw: &[u8]) -> usize {
    raw.iter().fold(0, |number, &byte| number << 8 | usize::from(byte))
}

fn block(raw: &[u8]) -> [f32; 64] {
    floats(&raw[..256]).try_into().expect("64 floats")
}

/// The sum of some numbers, in their order unless it is exchanged.
fn sum(start: f32, numbers: &[f32], swap: Swap) -> f32 {
    let start = if swap == FromPlusZero { 0.0 } else { start };
    let in_order = |numbers: &[f32]| numbers.iter().fold(start, |sum, number| sum + number);
    match swap {
        Falling => numbers.iter().rev().fold(start, |sum, number| sum + number),
        Pairs if numbers.len() > 2 => {
            let (low, high) = numbers.split_at(numbers.len() / 2);
            sum(start, low, swap) + sum(start, high, swap)
        }
        _ => in_order(numbers),
    }
}

fn grid(value: impl Fn(usize, usize) -> f32) -> [f32; 64] {
    std::array::from_fn(|place| value(place / 8, place % 8))
}

/// Value k of a line of eight is the sum over i of `weight(k, i)` times its value i.
fn through_rows(block: [f32; 64], weight: impl Fn(usize, usize) -> f32, swap: Swap) -> [f32; 64] {
    grid(|row, k| {
        let products: [f32; 8] = std::array::from_fn(|i| weight(k, i) * block[row * 8 + i]);
        sum(-0.0, &products, swap)
    })
}

fn through_columns(
    block: [f32; 64],
    weight: impl Fn(usize, usize) -> f32,
    swap: Swap,
) -> [f32; 64] {
    grid(|k, column| {
        let products: [f32; 8] = std::array::from_fn(|i| weight(k, i) * block[i * 8 + column]);
        sum(-0.0, &products, swap)
    })
}

fn forward(block: [f32; 64], swap: Swap) -> [f32; 64] {
    let matrix = stages::matrix();
    let weight = |k: usize, i: usize| matrix[k][i];
    if swap == Axes {
        return through_rows(through_columns(block, weight, swap), weight, swap);
    }
    through_columns(through_rows(block, weight, swap), weight, swap)
}

fn inverse(block: [f32; 64], swap: Swap) -> [f32; 64] {
    let matrix = stages::matrix();
    let weight = |i: usize, k: usize| matrix[k][i];
    if swap == Axes {
        return through_columns(through_rows(block, weight, swap), weight, swap);
    }
    through_rows(through_columns(block, weight, swap), weight, swap)
}

/// The places of the marked coefficients.
const COEFFICIENTS: [usize; 4] = [9, 10, 17, 18];

fn marked_coefficient(v: f32, u: f32, h: f32, swap: Swap) -> f32 {
    let x = v / 16.0;
    let rest = match swap {
        SubtractHalfFirst => x - h - u,
        SubtractAtOnce => x - (u + h),
        _ => x - u - h,
    };
    let n = rest.round();
    let value = match swap {
        AddHalfFirst => n + h + u,
        AddAtOnce => n + (u + h),
        _ => n + u + h,
    };
    value * 16.0
}

/// A block, four dither numbers and a bit.
fn marked(operand: &[u8], swap: Swap) -> [f32; 64] {
    let mut values = forward(block(operand), Nothing);
    let dither = floats(&operand[256..272]);
    let half = f32::from(operand[272]) * 0.5;
    for (place, u) in COEFFICIENTS.into_iter().zip(dither) {
        values[place] = marked_coefficient(values[place], u, half, swap);
    }
    inverse(values, Nothing)
}

fn term(v: f32, u: f32, swap: Swap) -> f32 {
    let x = v / 16.0 - u;
    let floor = x.floor();
    let r = if swap == FloorFirst { (v / 16.0 - floor) - u } else { x - floor };
    let rest = if swap == RestFromValue { (floor + 1.0) - x } else { 1.0 - r };
    1.0 - 4.0 * r.min(rest)
}

fn vote(operand: &[u8], swap: Swap) -> f32 {
    let values = forward(block(operand), Nothing);
    let dither = floats(&operand[256..272]);
    let terms: [f32; 4] = std::array::from_fn(|k| term(values[COEFFICIENTS[k]], dither[k], swap));
    sum(-0.0, &terms, swap) / 4.0
}

struct Window {
    first: i64,
    last: i64,
    center: f64,
    support: f64,
    sum: f64,
}

impl Window {
    fn new(src: usize, dst: usize, i: usize, swap: Swap) -> Window {
        let (from, to, i) = (src as f64, dst as f64, i as f64);
        let scale = from / to;
        let support = scale.max(1.0);
        let center = match swap {
            SizesFirst => (i + 0.5) * from / to - 0.5,
            HalfApart => i * scale + (0.5 * scale - 0.5),
            _ => (i + 0.5) * scale - 0.5,
        };
        let first = (center - support).ceil() as i64;
        let last = (center + support).floor() as i64;
        let mut window = Window { first, last, center, support, sum: 0.0 };
        let tents = (first..=last).map(|j| window.tent(j, swap)).filter(|&tent| tent > 0.0);
        let tents: Vec<f64> = tents.collect();
        window.sum = match swap {
            Falling => tents.iter().rev().fold(0.0, |sum, tent| sum + tent),
            _ => tents.iter().fold(0.0, |sum, tent| sum + tent),
        };
        window
    }

    fn tent(&self, j: i64, swap: Swap) -> f64 {
        let away = j as f64 - self.center;
        match swap {
            DivideTentLast => (self.support - away.abs()) / self.support,
            _ => 1.0 - (away / self.support).abs(),
        }
    }

    fn weight(&self, j: i64, swap: Swap) -> Option<f32> {
        let tent = self.tent(j, swap);
        let weight = match swap {
            NarrowLast => (tent / self.sum) as f32,
            _ => tent as f32 / self.sum as f32,
        };
        (tent > 0.0).then_some(weight)
    }
}

/// Source size, output size and output number, two bytes each.
fn window_of(operand: &[u8], swap: Swap) -> Window {
    let [src, dst, i] = [0, 2, 4].map(|at| number(&operand[at..at + 2]));
    Window::new(src, dst, i, swap)
}

fn window_parts(operand: &[u8], swap: Swap) -> Vec<u8> {
    let window = window_of(operand, swap);
    let parts =
        [window.first as f64, window.last as f64, window.center, window.support, window.sum];
    parts.iter().flat_map(|part| part.to_be_bytes()).collect()
}

fn weight(operand: &[u8], swap: Swap) -> Vec<u8> {
    let j = f64::from_bits(number(&operand[6..14]) as u64) as i64;
    let weight = window_of(operand, swap).weight(j, swap);
    let found = u8::from(weight.is_some());
    [vec![found], bytes(&[weight.unwrap_or(0.0)])].concat()
}

fn luma(pixel: &[u8], swap: Swap) -> f32 {
    let [red, green, blue] = [0, 1, 2].map(|channel| f32::from(pixel[channel]));
    let (red, green, blue) = (0.299 * red, 0.587 * green, 0.114 * blue);
    match swap {
        GreenAndBlueFirst => red + (green + blue),
        RedAndBlueFirst => (red + blue) + green,
        _ => (red + green) + blue,
    }
}

/// Channels and the samples of a row.
fn luma_row(operand: &[u8], swap: Swap) -> Vec<f32> {
    let channels = usize::from(operand[0]);
    operand[1..].chunks_exact(channels).map(|pixel| luma(pixel, swap)).collect()
}

/// The source numbers of an output sample, clamped, and their weights.
fn taps(
    src: usize,
    dst: usize,
    i: usize,
    falling: bool,
    at_once: bool,
    swap: Swap,
) -> Vec<(usize, f32)> {
    let window = Window::new(src, dst, i, swap);
    let mut taps: Vec<(usize, f32)> = Vec::new();
    for j in window.first..=window.last {
        let Some(weight) = window.weight(j, swap) else {
            continue;
        };
        let from = j.clamp(0, src as i64 - 1) as usize;
        match taps.last_mut() {
            Some(last) if at_once && last.0 == from => last.1 += weight,
            _ => taps.push((from, weight)),
        }
    }
    if falling {
        taps.reverse();
    }
    taps
}

/// Value (x, y) of a plane brought from one size to another.
fn resampled(
    (width, height): (usize, usize),
    (to_width, to_height): (usize, usize),
    (x, y): (usize, usize),
    value: impl Fn(usize, usize) -> f32,
    swap: Swap,
) -> f32 {
    let (falling, at_once) = (swap == HorizontalFalling, swap == HorizontalClampedAtOnce);
    let across = taps(width, to_width, x, falling, at_once, swap);
    let (falling, at_once) = (swap == VerticalFalling, swap == VerticalClampedAtOnce);
    let down = taps(height, to_height, y, falling, at_once, swap);
    // The Rust sums a row from -0.0, and adds rows to +0.0.
    let total = |start: f32, taps: &[(usize, f32)], value: &dyn Fn(usize) -> f32| {
        taps.iter().fold(start, |total, &(from, weight)| total + weight * value(from))
    };
    if swap == Axes {
        return total(-0.0, &across, &|k| total(0.0, &down, &|i| value(k, i)));
    }
    total(0.0, &down, &|i| total(-0.0, &across, &|k| value(k, i)))
}

/// Width and height, two bytes each, channels, a place in the plane, two bytes, and the samples.
fn plane_part(operand: &[u8], swap: Swap) -> Vec<f32> {
    let (width, height) = (number(&operand[..2]), number(&operand[2..4]));
    let channels = usize::from(operand[4]);
    let place = number(&operand[5..7]);
    let pattern = &operand[7..];
    let value = |x: usize, y: usize| {
        let at = (y * width + x) * channels;
        let pixel: [u8; 3] = std::array::from_fn(|channel| pattern[(at + channel) % pattern.len()]);
        luma(&pixel, swap)
    };
    let at = |place: usize| {
        resampled((width, height), (256, 256), (place % 256, place / 256), value, swap)
    };
    (place..place + 64).map(at).collect()
}

/// Width and height, two bytes each, channels, a place in the samples, four bytes, how many values, the values, and the
/// samples.
fn changed_part(operand: &[u8], swap: Swap) -> Vec<u8> {
    let (width, height) = (number(&operand[..2]), number(&operand[2..4]));
    let channels = usize::from(operand[4]);
    let place = number(&operand[5..9]);
    let start = 10 + 4 * usize::from(operand[9]);
    let values = floats(&operand[10..start]);
    let pattern = &operand[start..];
    let value = |x: usize, y: usize| values[(y * 256 + x) % values.len()];
    let changed = |at: usize| {
        let sample = pattern[at % pattern.len()];
        if at % channels == 3 {
            return sample;
        }
        let pixel = at / channels;
        let (x, y) = (pixel % width, pixel / width);
        let change = resampled((256, 256), (width, height), (x, y), value, swap);
        let change = if swap == RoundChangeFirst { change.round() } else { change };
        (f32::from(sample) + change).round().clamp(0.0, 255.0) as u8
    };
    (place..place + 64).map(changed).collect()
}

fn metric_of(metric: f32, first: f32, second: f32, swap: Swap) -> f32 {
    match swap {
        SecondVoteFirst => metric + second + first,
        VotesFirst => metric + (first + second),
        _ => metric + first + second,
    }
}

/// 748 votes: the record decoded, and the metric with which state 0 ended.
fn decoded(operand: &[u8], swap: Swap) -> Vec<u8> {
    let votes = floats(operand);
    let outputs = |register: usize| {
        [0o171, 0o133].map(|generator| (register & generator).count_ones() % 2 == 1)
    };
    let mut metrics = [f32::NEG_INFINITY; 64];
    metrics[0] = 0.0;
    let mut odd = Vec::new();
    for pair in votes.chunks_exact(2) {
        let mut next = [f32::NEG_INFINITY; 64];
        let mut from_odd = [false; 64];
        for state in 0..64 {
            for low in 0..2 {
                let previous = state << 1 & 63 | low;
                let [first, second] = outputs(state >> 5 << 6 | previous);
                let first = if first { -pair[0] } else { pair[0] };
                let second = if second { -pair[1] } else { pair[1] };
                let candidate = metric_of(metrics[previous], first, second, swap);
                if candidate > next[state] {
                    (next[state], from_odd[state]) = (candidate, low == 1);
                }
            }
        }
        metrics = next;
        odd.push(from_odd);
    }
    let mut record = [0; 46];
    let mut state = 0;
    for (step, from_odd) in odd.iter().enumerate().rev() {
        if step < 368 {
            record[step / 8] |= ((state >> 5) as u8) << (7 - step % 8);
        }
        state = state << 1 & 63 | usize::from(from_odd[state]);
    }
    [record.to_vec(), bytes(&[metrics[0]])].concat()
}
