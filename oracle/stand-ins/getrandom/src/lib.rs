//! Stands in for the crate `getrandom`: gives the salt that was asked for, so that results repeat.

use std::cell::Cell;

thread_local! {
    static NEXT: Cell<Option<[u8; 4]>> = const { Cell::new(None) };
}

/// No salt was set, or its length is another.
#[derive(Debug)]
pub struct Error;

/// Sets the four bytes that this thread's next `fill` gives.
pub fn set_next(salt: [u8; 4]) {
    NEXT.set(Some(salt));
}

/// Gives the bytes set last, once.
pub fn fill(bytes: &mut [u8]) -> Result<(), Error> {
    let salt = NEXT.take().ok_or(Error)?;
    if bytes.len() != salt.len() {
        return Err(Error);
    }
    bytes.copy_from_slice(&salt);
    Ok(())
}
