
/// Appended by `oracle/build` to a copy of this file: the private functions above, under public names.
pub mod stages {
    use super::{BLOCKS, CODED_LEN, Error, RECORD_LEN, SALT_LEN, SIZE, Window};

    /// The 46 bytes of a text, encrypted where a password and a salt are given.
    pub fn record(
        text: &str,
        lock: Option<(&str, [u8; SALT_LEN])>,
    ) -> Result<[u8; RECORD_LEN], Error> {
        super::build_record(text, lock)
    }

    /// The text of a record.
    pub fn parse(record: [u8; RECORD_LEN], password: Option<&str>) -> Result<String, Error> {
        super::parse_record(record, password)
    }

    /// The coded bits of a record.
    pub fn encode(record: &[u8; RECORD_LEN]) -> [u8; CODED_LEN] {
        super::encode(record)
    }

    /// The record that the votes of the coded bits give.
    pub fn decode(soft: &[f32; CODED_LEN]) -> [u8; RECORD_LEN] {
        super::viterbi(soft)
    }

    /// The metric with which state 0 ends, which the decoder does not give.
    ///
    /// A state's metric is the sum along its surviving path, and the path of state 0 is the one that
    /// encodes the record. A candidate that does not exceed minus infinity leaves minus infinity; from
    /// there on the traceback keeps to even predecessors, and so to state 0, where the code word runs too.
    pub fn final_metric(soft: &[f32; CODED_LEN]) -> f32 {
        let coded = super::encode(&super::viterbi(soft));
        let vote = |place: usize| {
            if coded[place] == 0 {
                soft[place]
            } else {
                -soft[place]
            }
        };
        (0..CODED_LEN).step_by(2).fold(0.0, |metric, place| {
            let candidate = metric + vote(place) + vote(place + 1);
            if candidate > f32::NEG_INFINITY {
                candidate
            } else {
                f32::NEG_INFINITY
            }
        })
    }

    /// The first entries of a keyed shuffle.
    pub fn shuffle(key: &[u8; 32], len: usize, count: usize) -> Vec<usize> {
        crate::shuffle(key, len, count)
    }

    /// The block that each place stands in.
    pub fn layout() -> Vec<usize> {
        super::layout()
    }

    /// The bit of each block.
    pub fn block_bits(coded: &[u8; CODED_LEN]) -> [u8; BLOCKS] {
        super::block_bits(coded)
    }

    /// The votes of the coded bits, as `extract` gathers them: it has no function for it.
    pub fn gather(block_soft: &[f32; BLOCKS]) -> [f32; CODED_LEN] {
        let mut soft = [0.0; CODED_LEN];
        for (j, &block) in super::layout().iter().enumerate() {
            soft[j % CODED_LEN] += block_soft[block];
        }
        soft
    }

    /// The dither of all blocks, four numbers a block.
    pub fn dither() -> Vec<f32> {
        super::dither()
    }

    /// The transform's matrix.
    pub fn matrix() -> [[f32; 8]; 8] {
        super::dct_matrix()
    }

    /// A block out of a plane.
    pub fn load_block(plane: &[f32], block: usize) -> [f32; 64] {
        super::load_block(plane, block)
    }

    /// A block into a plane.
    pub fn store_block(plane: &mut [f32], block: usize, values: &[f32; 64]) {
        super::store_block(plane, block, values);
    }

    /// Each block of a plane transformed, and transformed back, the matrix made once.
    pub fn there_and_back(plane: &mut [f32]) {
        let matrix = super::dct_matrix();
        for block in 0..BLOCKS {
            let mut values = super::load_block(plane, block);
            super::forward(&mut values, &matrix);
            super::inverse(&mut values, &matrix);
            super::store_block(plane, block, &values);
        }
    }

    /// The transform of a block.
    pub fn forward(block: &mut [f32; 64]) {
        super::forward(block, &super::dct_matrix());
    }

    /// The block of a transform.
    pub fn inverse(block: &mut [f32; 64]) {
        super::inverse(block, &super::dct_matrix());
    }

    /// The brightness of each pixel.
    pub fn luma(samples: &[u8], channels: usize) -> Vec<f32> {
        super::luma(samples, channels)
    }

    /// A window's numbers, and the weight of each source number that has one, before it is clamped.
    pub struct WindowParts {
        /// The first source number.
        pub first: i64,
        /// The last source number.
        pub last: i64,
        /// The centre.
        pub center: f64,
        /// The support.
        pub support: f64,
        /// The sum of the positive tents.
        pub sum: f64,
        /// Source number and weight, in rising order.
        pub weights: Vec<(i64, f32)>,
    }

    /// The window of output number `i`.
    pub fn window(src: usize, dst: usize, i: usize) -> WindowParts {
        let window = Window::new(src, dst, i);
        let weights = (window.first..=window.last)
            .filter_map(|j| Some((j, window.weight(j)?)))
            .collect();
        WindowParts {
            first: window.first,
            last: window.last,
            center: window.center,
            support: window.support,
            sum: window.sum,
            weights,
        }
    }

    /// The source numbers of a window and one more on each side, and the weight of each that has one.
    pub fn weights_around(src: usize, dst: usize, i: usize) -> Vec<(i64, Option<f32>)> {
        let window = Window::new(src, dst, i);
        (window.first - 1..=window.last + 1)
            .map(|j| (j, window.weight(j)))
            .collect()
    }

    /// A plane in another size.
    pub fn resample(
        src: &[f32],
        src_width: usize,
        src_height: usize,
        dst_width: usize,
        dst_height: usize,
    ) -> Vec<f32> {
        super::resample(src, src_width, src_height, dst_width, dst_height)
    }

    /// The 256 x 256 plane of a picture, as `mark` and `extract` take it.
    pub fn plane(samples: &[u8], channels: usize, width: usize, height: usize) -> Vec<f32> {
        super::resample(&super::luma(samples, channels), width, height, SIZE, SIZE)
    }

    /// A change of the plane put onto a picture's samples. `mark` has no function for it: the loop below is its own, repeated.
    pub fn change(
        samples: &mut [u8],
        channels: usize,
        width: usize,
        height: usize,
        change: &[f32],
    ) {
        let upsampled = super::resample(change, SIZE, SIZE, width, height);
        for (pixel, delta) in samples.chunks_exact_mut(channels).zip(upsampled) {
            for sample in &mut pixel[..3] {
                *sample = (f32::from(*sample) + delta).round().clamp(0.0, 255.0) as u8;
            }
        }
    }

    /// Marks a plane.
    pub fn embed_bits(plane: &mut [f32], bits: &[u8; BLOCKS]) {
        super::embed_bits(plane, bits);
    }

    /// The votes of a plane's blocks.
    pub fn block_soft(plane: &[f32]) -> Vec<f32> {
        super::block_soft(plane)
    }
}
