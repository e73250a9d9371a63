//! The stand-in's keystream from any position, with the scope's refusal 14.

use chacha20::cipher::{KeyIvInit, StreamCipher};
use chacha20::{ChaCha20, Key, Nonce};

use crate::refusal::Refused;

pub use chacha20::block;

/// Adds the keystream from byte `position` on and gives the position after it, or changes nothing where it ends before
/// the last byte.
pub fn apply(key: &Key, nonce: &Nonce, position: u64, bytes: &mut [u8]) -> Result<u64, Refused> {
    let mut cipher = ChaCha20::new(key, nonce);
    cipher.seek(position);
    cipher.try_apply_keystream(bytes).map_err(|_| Refused::new(14, 0))?;
    Ok(cipher.position())
}
