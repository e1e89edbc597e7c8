//! What the driver reaches of the sources' private functions; column/writer/byte_budget_chunker.rs opens it.

use crate::column::writer::LevelDataRef;
use crate::errors::Result;
use crate::schema::types::ColumnDescriptor;

/// `compare_greater`, `is_nan`, `update_min` and `update_max`.
pub trait ValueDoor: Sized {
    fn greater(descr: &ColumnDescriptor, a: &Self, b: &Self) -> bool;
    fn nan(descr: &ColumnDescriptor, value: &Self) -> bool;
    fn into_min(descr: &ColumnDescriptor, value: &Self, min: &mut Option<Self>);
    fn into_max(descr: &ColumnDescriptor, value: &Self, max: &mut Option<Self>);
}

/// `increment` of bytes and `increment_utf8` of text; `compare_greater_byte_array_decimals`.
pub trait Raises {
    fn raised(&self) -> Option<Vec<u8>>;
    fn decimal_greater(&self, other: &Self) -> bool;
}

/// A `LevelDataRef` in the words of the line format.
pub trait LevelDoor {
    fn text(self) -> String;
}

/// What a chunk's record has beside the metadata.
pub struct Bounds {
    pub min: Option<Vec<u8>>,
    pub max: Option<Vec<u8>>,
    pub nulls: u64,
    pub nans: Option<u64>,
    pub ascending: bool,
    pub descending: bool,
}

/// `write_mini_batch`, `add_data_page`, `truncate_min_value`, `truncate_max_value` and the writer's own metrics.
pub trait ChunkDoor {
    type Value;

    fn mini_batch(
        &mut self,
        values: &[Self::Value],
        num_levels: usize,
        def_levels: LevelDataRef<'_>,
        rep_levels: LevelDataRef<'_>,
    ) -> Result<usize>;

    /// Adds a data page if there is anything to add, and says whether there was.
    fn cut(&mut self) -> Result<bool>;

    /// The bounds that the column index gets of a value at a cut length, and whether each was cut.
    fn cuts(&self, length: usize, value: &[u8]) -> (Vec<u8>, bool, Vec<u8>, bool);

    fn bounds(&self) -> Bounds;
}
