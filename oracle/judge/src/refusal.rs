//! The refusals of the scope.

use std::fmt;

/// A refusal: its number in the scope's table, and the number given with it.
#[derive(Debug, Clone, Copy, PartialEq, Eq)]
pub struct Refused {
    pub number: u8,
    pub given: u64,
}

impl Refused {
    pub fn new(number: u8, given: u64) -> Refused {
        Refused { number, given }
    }
}

impl fmt::Display for Refused {
    fn fmt(&self, formatter: &mut fmt::Formatter<'_>) -> fmt::Result {
        write!(formatter, "refused {} {}", self.number, self.given)
    }
}

/// What the Rust says, in the scope's numbers. The unchanged Rust and its instrumented copy have an
/// `Error` each, with the same cases. Neither gives a salt: `salt` is that of the record.
macro_rules! from_error {
    ($function:ident, $rust:ident) => {
        pub fn $function(error: $rust::Error, salt: [u8; 4]) -> Refused {
            use $rust::Error;
            match error {
                Error::TextTooLong { len } => Refused::new(1, len as u64),
                Error::ImageTooSmall { short_side } => Refused::new(3, short_side.into()),
                Error::NoWatermark => Refused::new(8, 0),
                Error::UnsupportedVersion(mode) => Refused::new(9, mode.into()),
                Error::NotEncrypted => Refused::new(10, 0),
                Error::PasswordRequired => Refused::new(11, u32::from_be_bytes(salt).into()),
                Error::Damaged => Refused::new(12, 0),
                Error::WrongPasswordOrDamaged => Refused::new(13, 0),
                other => panic!("the resilient mode with a key never says {other:?}"),
            }
        }
    };
}

from_error!(from_unchanged, invisible_watermark);
from_error!(from_instrumented, instrumented);
