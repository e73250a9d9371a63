//! Stands in for the crate `argon2` and is not Argon2: the password is the key itself, in 64 hex digits.
//!
//! The scope leaves Argon2id to the host, which passes a 32-byte key. The Rust takes a password,
//! so the judge writes the key as `password_of` says, and this crate reads it back whatever the salt.

/// The password under which `hash_password_into` gives `key`.
pub fn password_of(key: &[u8; 32]) -> String {
    key.iter().map(|byte| format!("{byte:02x}")).collect()
}

/// The password is not 64 hex digits, or the output not 32 bytes.
#[derive(Debug)]
pub struct Error;

/// The variant that the Rust names.
pub enum Algorithm {
    /// The only one it uses.
    Argon2id,
}

/// The version that the Rust names.
pub enum Version {
    /// The only one it uses.
    V0x13,
}

/// Memory, passes and lanes are of no account here.
pub struct Params;

impl Params {
    /// Takes any costs.
    pub fn new(
        _memory: u32,
        _passes: u32,
        _lanes: u32,
        _output: Option<usize>,
    ) -> Result<Params, Error> {
        Ok(Params)
    }
}

/// The key derivation.
pub struct Argon2;

impl Argon2 {
    /// The same whatever is asked for.
    pub fn new(_algorithm: Algorithm, _version: Version, _params: Params) -> Argon2 {
        Argon2
    }

    /// Reads the key from the password.
    pub fn hash_password_into(
        &self,
        password: &[u8],
        _salt: &[u8],
        output: &mut [u8],
    ) -> Result<(), Error> {
        if password.len() != 64 || output.len() != 32 {
            return Err(Error);
        }
        for (byte, digits) in output.iter_mut().zip(password.as_chunks::<2>().0) {
            let digits = std::str::from_utf8(digits).map_err(|_| Error)?;
            *byte = u8::from_str_radix(digits, 16).map_err(|_| Error)?;
        }
        Ok(())
    }
}
