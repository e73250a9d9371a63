//! The Rust as the judge: its stages, and in front of them the refusals that the scope adds.

pub mod cipher;
pub mod edges;
pub mod hex;
pub mod marks;
pub mod orders;
pub mod picture;
pub mod random;
pub mod records;
pub mod refusal;
pub mod resilient;
pub mod shuffles;
pub mod soft;
pub mod texts;

pub use crc32fast::hash as crc32;
pub use instrumented::stages;
pub use invisible_watermark as unchanged;
