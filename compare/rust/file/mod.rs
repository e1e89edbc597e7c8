//! The module tree around properties.rs and statistics.rs, which are theirs.

pub mod metadata;
pub mod page_index;
pub mod properties;
pub mod statistics;
