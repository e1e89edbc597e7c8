//! The module tree around levels.rs, which is theirs.

pub mod decoding;
pub mod encoding;
pub mod levels;
pub mod rle;
