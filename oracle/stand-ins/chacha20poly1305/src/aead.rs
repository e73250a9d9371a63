//! Stands in for the traits of the crate `aead` that the Rust names.

use crate::{Error, XChaCha20Poly1305, XNonce};

/// A message and the data that is authenticated with it.
pub struct Payload<'a> {
    /// The message.
    pub msg: &'a [u8],
    /// The further data.
    pub aad: &'a [u8],
}

/// Authenticated encryption.
pub trait Aead {
    /// The encrypted message and its tag.
    fn encrypt(&self, nonce: &XNonce, payload: Payload<'_>) -> Result<Vec<u8>, Error>;
    /// The message, where the tag is right.
    fn decrypt(&self, nonce: &XNonce, payload: Payload<'_>) -> Result<Vec<u8>, Error>;
}

impl Aead for XChaCha20Poly1305 {
    fn encrypt(&self, _nonce: &XNonce, _payload: Payload<'_>) -> Result<Vec<u8>, Error> {
        unimplemented!("only the resilient mode is built here")
    }

    fn decrypt(&self, _nonce: &XNonce, _payload: Payload<'_>) -> Result<Vec<u8>, Error> {
        unimplemented!("only the resilient mode is built here")
    }
}
