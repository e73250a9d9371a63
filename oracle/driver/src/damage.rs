//! What happens to a marked picture on its way: noise, scaling, and the rounding of JPEG.

use std::f64::consts::PI;

use judge::picture::Picture;
use judge::random::Random;

pub type Damage = fn(&mut Random, Picture, &[u8]) -> (Picture, Vec<u8>);

pub const DAMAGES: [(&str, Damage); 5] = [
    ("as it is", |_, picture, samples| (picture, samples.to_vec())),
    ("noise", noise),
    ("halved", |_, picture, samples| halved(picture, samples)),
    ("halved and doubled", |_, picture, samples| {
        let (half, samples) = halved(picture, samples);
        doubled(half, &samples)
    }),
    ("quantised", quantised),
];

fn clamped(value: f64) -> u8 {
    value.round().clamp(0.0, 255.0) as u8
}

/// Every sample off by at most a number up to 16.
fn noise(random: &mut Random, picture: Picture, samples: &[u8]) -> (Picture, Vec<u8>) {
    let most = 1 + random.below(16);
    let moved = samples.iter().map(|&sample| {
        let change = random.below(2 * most + 1) as i64 - most as i64;
        (i64::from(sample) + change).clamp(0, 255) as u8
    });
    (picture, moved.collect())
}

/// Half as wide and half as high, each pixel the mean of four.
fn halved(picture: Picture, samples: &[u8]) -> (Picture, Vec<u8>) {
    let Picture { width, height, channels } = picture;
    let half = Picture { width: width / 2, height: height / 2, channels };
    let at = |x, y, channel| u32::from(samples[(y * width + x) * channels + channel]);
    let mut out = Vec::with_capacity(half.width * half.height * channels);
    for y in 0..half.height {
        for x in 0..half.width {
            for c in 0..channels {
                let (x, y) = (2 * x, 2 * y);
                let sum = at(x, y, c) + at(x + 1, y, c) + at(x, y + 1, c) + at(x + 1, y + 1, c);
                out.push(((sum + 2) / 4) as u8);
            }
        }
    }
    (half, out)
}

/// Each pixel four times.
fn doubled(picture: Picture, samples: &[u8]) -> (Picture, Vec<u8>) {
    let Picture { width, height, channels } = picture;
    let twice = Picture { width: 2 * width, height: 2 * height, channels };
    let mut out = Vec::with_capacity(twice.width * twice.height * channels);
    for row in samples.chunks_exact((width * channels).max(1)) {
        let wide: Vec<u8> =
            row.chunks_exact(channels).flat_map(|pixel| [pixel, pixel].concat()).collect();
        out.extend_from_slice(&wide);
        out.extend_from_slice(&wide);
    }
    (twice, out)
}

/// The steps of ITU-T T.81, table K.1, row by row.
const STEPS: [u8; 64] = [
    16, 11, 10, 16, 24, 40, 51, 61, 12, 12, 14, 19, 26, 58, 60, 55, 14, 13, 16, 24, 40, 57, 69, 56,
    14, 17, 22, 29, 51, 87, 80, 62, 18, 22, 37, 56, 68, 109, 103, 77, 24, 35, 55, 64, 81, 104, 113,
    92, 49, 64, 78, 87, 103, 121, 120, 101, 72, 92, 95, 98, 112, 100, 103, 99,
];

/// Row k, column i of the cosine transform.
fn cosines() -> [[f64; 8]; 8] {
    std::array::from_fn(|k| {
        let scale: f64 = if k == 0 { 0.125 } else { 0.25 };
        std::array::from_fn(|i| scale.sqrt() * (PI * ((2 * i + 1) * k) as f64 / 16.0).cos())
    })
}

type Block = [[f64; 8]; 8];

/// The product of two matrices, of which the first is turned where asked.
fn product(a: &Block, turned: bool, b: &Block) -> Block {
    let entry = |r: usize, k: usize| if turned { a[k][r] } else { a[r][k] };
    std::array::from_fn(|r| std::array::from_fn(|c| (0..8).map(|k| entry(r, k) * b[k][c]).sum()))
}

fn transposed(block: &Block) -> Block {
    std::array::from_fn(|r| std::array::from_fn(|c| block[c][r]))
}

/// The whole 8 x 8 blocks of each colour transformed, rounded to multiples of the steps, and transformed back.
fn quantised(random: &mut Random, picture: Picture, samples: &[u8]) -> (Picture, Vec<u8>) {
    let Picture { width, height, channels } = picture;
    let cosines = cosines();
    // From a quarter of the table's steps to twice: a quality from 87 to 25.
    let scale = (5 + random.below(36)) as f64 / 20.0;
    let mut out = samples.to_vec();
    for (y, x) in (0..height / 8).flat_map(|y| (0..width / 8).map(move |x| (8 * y, 8 * x))) {
        for channel in 0..3 {
            let place = |r: usize, c: usize| ((y + r) * width + x + c) * channels + channel;
            let block: Block = std::array::from_fn(|r| {
                std::array::from_fn(|c| f64::from(out[place(r, c)]) - 128.0)
            });
            let half = transposed(&product(&cosines, false, &block));
            let mut values = product(&cosines, false, &half);
            // Turned on the diagonal, which the steps are turned with.
            for (c, column) in values.iter_mut().enumerate() {
                for (r, value) in column.iter_mut().enumerate() {
                    let step = (f64::from(STEPS[8 * r + c]) * scale).max(1.0);
                    *value = (*value / step).round() * step;
                }
            }
            let half = transposed(&product(&cosines, true, &values));
            let back = product(&cosines, true, &half);
            for (r, row) in back.iter().enumerate() {
                for (c, value) in row.iter().enumerate() {
                    out[place(r, c)] = clamped(value + 128.0);
                }
            }
        }
    }
    (picture, out)
}
