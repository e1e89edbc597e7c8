//! Stand-in for the crate `half`: binary16 bit patterns in the total order of IEEE 754, written from the standard's
//! clause 5.10 and not from the crate.

#![allow(non_camel_case_types)]

use std::cmp::Ordering;

#[derive(Clone, Copy, Debug, Default)]
pub struct f16(u16);

impl f16 {
    pub fn from_le_bytes(bytes: [u8; 2]) -> Self {
        f16(u16::from_le_bytes(bytes))
    }

    pub fn to_le_bytes(self) -> [u8; 2] {
        self.0.to_le_bytes()
    }

    pub fn total_cmp(&self, other: &f16) -> Ordering {
        self.rank().cmp(&other.rank())
    }

    // Magnitudes count up behind a positive sign and down behind a negative one, which puts -0 before +0.
    fn rank(self) -> i32 {
        let magnitude = i32::from(self.0 & 0x7FFF);
        if self.0 & 0x8000 == 0 {
            magnitude
        } else {
            -1 - magnitude
        }
    }
}
