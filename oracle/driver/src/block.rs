//! The stage block: the transform and its inverse, marking, votes, and blocks out of the plane and into it; and a whole
//! plane transformed and transformed back.

use judge::random::Random;
use judge::soft::votes;
use judge::stages;

use crate::ours;
use crate::tally::{Tally, Value};

/// Planes of 1,024 blocks at scale 1.
const PLANES: u64 = 200;
/// The samples of a plane.
const PLANE_LEN: usize = 256 * 256;

fn same(mine: &[f32], theirs: &[f32]) -> bool {
    mine.len() == theirs.len() && mine.iter().zip(theirs).all(|(mine, theirs)| mine.same(*theirs))
}

/// The place of a block's value in the plane.
fn place(block: usize, index: usize) -> usize {
    (block / 32 * 8 + index / 8) * 256 + block % 32 * 8 + index % 8
}

/// A plane of 1,024 blocks: in even planes samples of a picture, whole or not; in odd ones the kinds of `votes` in turn.
/// Every fifth block is constant, of the first value that it would have.
fn plane(random: &mut Random, case: u64) -> Box<[f32; PLANE_LEN]> {
    let mut plane = vec![0.0; PLANE_LEN];
    for block in 0..1024 {
        let kind = if case % 2 == 0 { block as u64 % 3 } else { case / 2 + block as u64 };
        let mut values: [f32; 64] = votes(random, kind);
        if block % 5 == 4 {
            values = [values[0]; 64];
        }
        for (index, value) in values.into_iter().enumerate() {
            plane[place(block, index)] = if case % 2 == 0 { 127.5 * value + 127.5 } else { value };
        }
    }
    plane.into_boxed_slice().try_into().expect("a plane")
}

/// The functions that ours has for a block.
struct Block {
    forward: unsafe extern "C" fn(&mut [f32; 64]),
    inverse: unsafe extern "C" fn(&mut [f32; 64]),
    mark: unsafe extern "C" fn(&mut [f32; 64], &[f32; 4], u8),
    vote: unsafe extern "C" fn(&[f32; 64], &[f32; 4]) -> f32,
    load: unsafe extern "C" fn(&[f32; PLANE_LEN], u16, &mut [f32; 64]),
    store: unsafe extern "C" fn(&mut [f32; PLANE_LEN], u16, &[f32; 64]),
    there_and_back: unsafe extern "C" fn(&mut [f32; PLANE_LEN]),
}

impl Block {
    fn found() -> Option<Self> {
        Some(Self {
            forward: ours::vk_forward.function?,
            inverse: ours::vk_inverse.function?,
            mark: ours::vk_mark_block.function?,
            vote: ours::vk_block_vote.function?,
            load: ours::vk_load_block.function?,
            store: ours::vk_store_block.function?,
            there_and_back: ours::vk_there_and_back.function?,
        })
    }

    fn load(&self, plane: &[f32; PLANE_LEN], block: usize) -> [f32; 64] {
        let mut values = [f32::NAN; 64];
        unsafe { (self.load)(plane, block as u16, &mut values) };
        values
    }

    fn forward(&self, mut values: [f32; 64]) -> [f32; 64] {
        unsafe { (self.forward)(&mut values) };
        values
    }

    fn inverse(&self, mut values: [f32; 64]) -> [f32; 64] {
        unsafe { (self.inverse)(&mut values) };
        values
    }

    /// The Rust's `block_soft` by ours.
    fn votes(&self, plane: &[f32; PLANE_LEN], dither: &[[f32; 4]]) -> Vec<f32> {
        let vote = |(block, u): (usize, &[f32; 4])| {
            let values = self.forward(self.load(plane, block));
            unsafe { (self.vote)(&values, u) }
        };
        dither.iter().enumerate().map(vote).collect()
    }

    /// The Rust's `embed_bits` by ours.
    fn embed(&self, plane: &mut [f32; PLANE_LEN], bits: &[u8; 1024], dither: &[[f32; 4]]) {
        for (block, (u, &bit)) in dither.iter().zip(bits).enumerate() {
            let mut values = self.forward(self.load(plane, block));
            unsafe { (self.mark)(&mut values, u, bit) };
            let values = self.inverse(values);
            unsafe { (self.store)(plane, block as u16, &values) };
        }
    }
}

fn compare_transforms(tally: &mut Tally, ours: &Block, plane: &[f32; PLANE_LEN]) {
    for block in 0..1024 {
        let values = std::array::from_fn(|index| plane[place(block, index)]);
        let mut theirs = values;
        stages::forward(&mut theirs);
        tally.count(same(&ours.forward(values), &theirs), || format!("vk_forward {values:?}"));
        let mut theirs = values;
        stages::inverse(&mut theirs);
        tally.count(same(&ours.inverse(values), &theirs), || format!("vk_inverse {values:?}"));
    }
}

/// Both planes, 64 samples at a time.
fn compare_samples(tally: &mut Tally, mine: &[f32], theirs: &[f32], name: &str, case: u64) {
    for (line, (mine, theirs)) in mine.chunks_exact(64).zip(theirs.chunks_exact(64)).enumerate() {
        tally.count(same(mine, theirs), || format!("{name} {case}, samples from {}", line * 64));
    }
}

fn compare_there_and_back(tally: &mut Tally, ours: &Block, plane: &[f32; PLANE_LEN], case: u64) {
    let (mut mine, mut theirs) = (Box::new(*plane), plane.to_vec());
    unsafe { (ours.there_and_back)(&mut mine) };
    stages::there_and_back(&mut theirs);
    compare_samples(tally, &mine[..], &theirs, "vk_there_and_back, plane", case);
}

fn compare_plane(
    tally: &mut Tally,
    ours: &Block,
    random: &mut Random,
    case: u64,
    dither: &[[f32; 4]],
) {
    let mut mine = plane(random, case);
    compare_transforms(tally, ours, &mine);
    compare_there_and_back(tally, ours, &mine, case);
    let mine_votes = ours.votes(&mine, dither);
    if case % 2 == 0 {
        let telling = mine_votes.iter().filter(|vote| vote.abs() < 1.0).count();
        assert!(telling > 900, "a plane of samples has votes of all sizes");
    }
    for (block, (mine, theirs)) in mine_votes.iter().zip(stages::block_soft(&mine[..])).enumerate()
    {
        tally.count(mine.same(theirs), || format!("the vote of block {block}, plane {case}"));
    }
    // A bit, or now and then any byte.
    let bits: [u8; 1024] =
        random.array::<1024>().map(|byte| if byte < 16 { byte } else { byte % 2 });
    let mut theirs = mine.clone();
    ours.embed(&mut mine, &bits, dither);
    stages::embed_bits(&mut theirs[..], &bits);
    compare_samples(tally, &mine[..], &theirs[..], "the marked plane", case);
}

pub fn compare(random: &mut Random, scale: u64) -> Tally {
    let mut tally = Tally::default();
    let Some(ours) = Block::found() else {
        tally.missing.push("vk_forward and the others of a block");
        return tally;
    };
    let numbers = stages::dither();
    let dither = numbers.as_chunks::<4>().0;
    for case in 0..scale * PLANES {
        compare_plane(&mut tally, &ours, random, case, dither);
    }
    tally
}
