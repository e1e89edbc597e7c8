//! Stand-in for the crate `arrow_array`: only the name that the feature `arrow` of the sources wants.

pub trait Array {
    fn len(&self) -> usize;
}
