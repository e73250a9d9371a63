//! Stands in for the crate `chacha20poly1305`: types only, since the resilient mode uses none of its code.

pub use chacha20::Key;

pub mod aead;

/// 24 bytes of nonce.
pub type XNonce = [u8; 24];

/// The real crate's error.
#[derive(Debug)]
pub struct Error;

/// A cipher made from a key.
pub trait KeyInit {
    /// The cipher under `key`.
    fn new(key: &Key) -> Self;
}

/// The cipher of the other modes.
pub struct XChaCha20Poly1305;

impl KeyInit for XChaCha20Poly1305 {
    fn new(_key: &Key) -> Self {
        unimplemented!("only the resilient mode is built here")
    }
}
