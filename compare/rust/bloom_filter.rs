//! Stand-in: a bloom filter that no column of the comparison has.

use crate::errors::Result;

#[derive(Debug, Clone)]
pub struct Sbbf;

impl Sbbf {
    pub fn new_with_ndv_fpp(_: u64, _: f64) -> Result<Self> {
        Ok(Sbbf)
    }

    pub fn insert<T: ?Sized>(&mut self, _: &T) {}

    pub fn fold_to_target_fpp(&mut self, _: f64) {}

    pub fn estimated_memory_size(&self) -> usize {
        0
    }
}
