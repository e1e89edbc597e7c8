//! Stand-in for the crate `bytes`: shared bytes, as far as the sources under comparison use them.

use std::cmp::Ordering;
use std::ops::{Bound, Deref, RangeBounds};
use std::sync::Arc;

#[derive(Clone, Debug, Default, PartialEq, Eq)]
pub struct Bytes {
    bytes: Arc<[u8]>,
}

impl Bytes {
    pub fn slice(&self, range: impl RangeBounds<usize>) -> Self {
        let start = match range.start_bound() {
            Bound::Included(n) => *n,
            Bound::Excluded(n) => n + 1,
            Bound::Unbounded => 0,
        };
        let end = match range.end_bound() {
            Bound::Included(n) => n + 1,
            Bound::Excluded(n) => *n,
            Bound::Unbounded => self.bytes.len(),
        };
        Bytes {
            bytes: self.bytes[start..end].into(),
        }
    }
}

impl From<Vec<u8>> for Bytes {
    fn from(bytes: Vec<u8>) -> Self {
        Bytes { bytes: bytes.into() }
    }
}

impl Deref for Bytes {
    type Target = [u8];

    fn deref(&self) -> &[u8] {
        &self.bytes
    }
}

impl AsRef<[u8]> for Bytes {
    fn as_ref(&self) -> &[u8] {
        &self.bytes
    }
}

// The order of unsigned bytes, as the crate documents it for slices.
impl PartialOrd for Bytes {
    fn partial_cmp(&self, other: &Bytes) -> Option<Ordering> {
        self.bytes[..].partial_cmp(&other.bytes[..])
    }
}
