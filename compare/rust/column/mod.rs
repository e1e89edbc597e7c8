//! The module tree around the sources: page.rs and writer/ are theirs.

pub mod page;
pub mod reader;
pub mod writer;
