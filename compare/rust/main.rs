//! The comparison's driver, in one crate with the sources under comparison. README.md says how it is built.

#![allow(dead_code, unused_imports, private_interfaces, private_bounds)]

#[macro_use]
mod errors;
mod arrow;
mod basic;
mod bloom_filter;
mod column;
mod compression;
#[macro_use]
mod data_type;
mod encodings;
mod file;
mod geospatial;
mod schema;
mod util;

mod door;
mod driver;

fn main() -> std::process::ExitCode {
    driver::main()
}
