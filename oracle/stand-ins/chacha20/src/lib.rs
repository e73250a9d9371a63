//! Stands in for the crate `chacha20`: the cipher of RFC 8439, 2.1 to 2.4, its stream from block 0.

pub mod cipher;

use cipher::{KeyIvInit, StreamCipher, StreamCipherError};

/// 32 bytes of key.
pub type Key = [u8; 32];
/// 12 bytes of nonce.
pub type Nonce = [u8; 12];

/// Bytes in a block (2.3).
const BLOCK: u64 = 64;
/// The stream's length: the block counter has 32 bits (2.3), so there are 2^32 blocks.
const END: u64 = BLOCK << 32;

/// A keystream and the position of its next byte.
pub struct ChaCha20 {
    key: Key,
    nonce: Nonce,
    position: u64,
}

impl ChaCha20 {
    /// Moves to any byte of the stream, or beyond its end.
    pub fn seek(&mut self, position: u64) {
        self.position = position;
    }

    /// The position of the next byte.
    pub fn position(&self) -> u64 {
        self.position
    }
}

impl KeyIvInit for ChaCha20 {
    fn new(key: &Key, nonce: &Nonce) -> Self {
        ChaCha20 { key: *key, nonce: *nonce, position: 0 }
    }
}

impl StreamCipher for ChaCha20 {
    /// Refuses what needs a byte beyond block 2^32 - 1, and then changes nothing.
    fn try_apply_keystream(&mut self, bytes: &mut [u8]) -> Result<(), StreamCipherError> {
        let left = END.saturating_sub(self.position);
        if bytes.len() as u64 > left {
            return Err(StreamCipherError);
        }
        let mut rest = bytes;
        while !rest.is_empty() {
            let counter = (self.position / BLOCK) as u32;
            let skip = (self.position % BLOCK) as usize;
            let stream = block(&self.key, counter, &self.nonce);
            let count = rest.len().min(stream.len() - skip);
            let (now, later) = rest.split_at_mut(count);
            for (byte, key) in now.iter_mut().zip(&stream[skip..]) {
                *byte ^= key;
            }
            self.position += count as u64;
            rest = later;
        }
        Ok(())
    }
}

/// The quarter round (2.1), on four words of the state (2.2).
fn quarter_round(state: &mut [u32; 16], a: usize, b: usize, c: usize, d: usize) {
    state[a] = state[a].wrapping_add(state[b]);
    state[d] = (state[d] ^ state[a]).rotate_left(16);
    state[c] = state[c].wrapping_add(state[d]);
    state[b] = (state[b] ^ state[c]).rotate_left(12);
    state[a] = state[a].wrapping_add(state[b]);
    state[d] = (state[d] ^ state[a]).rotate_left(8);
    state[c] = state[c].wrapping_add(state[d]);
    state[b] = (state[b] ^ state[c]).rotate_left(7);
}

/// A column round and a diagonal round (2.3).
fn inner_block(state: &mut [u32; 16]) {
    for i in 0..4 {
        quarter_round(state, i, 4 + i, 8 + i, 12 + i);
    }
    for i in 0..4 {
        let diagonal = |row: usize| 4 * row + (i + row) % 4;
        quarter_round(state, i, diagonal(1), diagonal(2), diagonal(3));
    }
}

/// The constants, the key, the counter and the nonce (2.3), words little-endian.
fn initial_state(key: &Key, counter: u32, nonce: &Nonce) -> [u32; 16] {
    let mut state = [0; 16];
    state[..4].copy_from_slice(&[0x6170_7865, 0x3320_646e, 0x7962_2d32, 0x6b20_6574]);
    for (word, bytes) in state[4..12].iter_mut().zip(key.as_chunks::<4>().0) {
        *word = u32::from_le_bytes(*bytes);
    }
    state[12] = counter;
    for (word, bytes) in state[13..].iter_mut().zip(nonce.as_chunks::<4>().0) {
        *word = u32::from_le_bytes(*bytes);
    }
    state
}

/// The block function (2.3): ten double rounds, then the initial state added.
pub fn block(key: &Key, counter: u32, nonce: &Nonce) -> [u8; 64] {
    let initial = initial_state(key, counter, nonce);
    let mut state = initial;
    for _ in 0..10 {
        inner_block(&mut state);
    }
    let mut bytes = [0; 64];
    for (i, out) in bytes.as_chunks_mut::<4>().0.iter_mut().enumerate() {
        *out = state[i].wrapping_add(initial[i]).to_le_bytes();
    }
    bytes
}
