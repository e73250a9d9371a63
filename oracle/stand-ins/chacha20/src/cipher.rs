//! Stands in for the traits of the crate `cipher` that the Rust uses.

use crate::{Key, Nonce};

/// A cipher made from a key and a nonce.
pub trait KeyIvInit {
    /// The cipher at the start of its stream.
    fn new(key: &Key, nonce: &Nonce) -> Self;
}

/// The stream does not reach as far as was asked.
#[derive(Debug, Clone, Copy, PartialEq, Eq)]
pub struct StreamCipherError;

/// A cipher that adds a keystream to bytes.
pub trait StreamCipher {
    /// Adds the next bytes of the stream, or none where it ends before the last of them.
    fn try_apply_keystream(&mut self, bytes: &mut [u8]) -> Result<(), StreamCipherError>;

    /// The same where the stream is known to reach.
    fn apply_keystream(&mut self, bytes: &mut [u8]) {
        self.try_apply_keystream(bytes).expect("the stream ended");
    }
}
