
/// Appended by `oracle/build` to a copy of this file: what it appended to the other.
pub use resilient::stages;
