//! Stand-in: the chunker of the public batch calls, which the comparison does not go through. As a child of the writer's
//! module this file also sees what is private there, and opens it to the driver by the traits of door.rs.

use super::*;
use crate::door::{Bounds, ChunkDoor, LevelDoor, Raises, ValueDoor};

pub(super) struct ByteBudgetChunker;

#[derive(Clone, Copy)]
pub(super) enum SubBatchStrategy {
    Values(usize),
    Levels(usize),
}

impl ByteBudgetChunker {
    pub(super) fn new(_: &ColumnDescPtr, _: &ResolvedColumnProperties, _: usize) -> Self {
        ByteBudgetChunker
    }

    pub(super) fn pick_sub_batch<E: ColumnValueEncoder>(
        &self,
        _: &E,
        _: &E::Values,
        _: Option<&[usize]>,
        _: LevelDataRef<'_>,
        _: usize,
        _: usize,
    ) -> Option<SubBatchStrategy> {
        None
    }
}

impl<T: ParquetValueType> ValueDoor for T {
    fn greater(descr: &ColumnDescriptor, a: &T, b: &T) -> bool {
        compare_greater(descr.get_basic_info(), a, b)
    }

    fn nan(descr: &ColumnDescriptor, value: &T) -> bool {
        is_nan(descr.get_basic_info(), value)
    }

    fn into_min(descr: &ColumnDescriptor, value: &T, min: &mut Option<T>) {
        update_min(descr, value, min)
    }

    fn into_max(descr: &ColumnDescriptor, value: &T, max: &mut Option<T>) {
        update_max(descr, value, max)
    }
}

impl Raises for [u8] {
    fn raised(&self) -> Option<Vec<u8>> {
        increment(self.to_vec())
    }

    fn decimal_greater(&self, other: &[u8]) -> bool {
        compare_greater_byte_array_decimals(self, other)
    }
}

impl Raises for str {
    fn raised(&self) -> Option<Vec<u8>> {
        increment_utf8(self)
    }

    fn decimal_greater(&self, other: &str) -> bool {
        self.as_bytes().decimal_greater(other.as_bytes())
    }
}

impl LevelDoor for LevelDataRef<'_> {
    fn text(self) -> String {
        match self {
            LevelDataRef::Absent => "-".to_string(),
            LevelDataRef::Materialized(levels) => {
                let levels: Vec<String> = levels.iter().map(|level| level.to_string()).collect();
                format!(":{}", levels.join(","))
            }
            LevelDataRef::Uniform { value, count } => format!("={value}*{count}"),
        }
    }
}

impl<T: DataType> ChunkDoor for ColumnWriterImpl<'_, T> {
    type Value = T::T;

    fn mini_batch(
        &mut self,
        values: &[T::T],
        num_levels: usize,
        def_levels: LevelDataRef<'_>,
        rep_levels: LevelDataRef<'_>,
    ) -> Result<usize> {
        self.write_mini_batch(values, 0, None, num_levels, def_levels, rep_levels)
    }

    fn cut(&mut self) -> Result<bool> {
        let cut = self.page_metrics.num_buffered_values > 0;
        if cut {
            self.add_data_page()?;
        }
        Ok(cut)
    }

    fn cuts(&self, length: usize, value: &[u8]) -> (Vec<u8>, bool, Vec<u8>, bool) {
        if !self.can_truncate_value() {
            return (value.to_vec(), false, value.to_vec(), false);
        }
        let (lower, lower_cut) = self.truncate_min_value(Some(length), value);
        let (upper, upper_cut) = self.truncate_max_value(Some(length), value);
        (lower, lower_cut, upper, upper_cut)
    }

    fn bounds(&self) -> Bounds {
        let bytes = |value: &Option<T::T>| value.as_ref().map(|value| value.as_bytes().to_vec());
        Bounds {
            min: bytes(&self.column_metrics.min_column_value),
            max: bytes(&self.column_metrics.max_column_value),
            nulls: self.column_metrics.num_column_nulls,
            nans: self.column_metrics.num_column_nans,
            ascending: self.data_page_boundary_ascending,
            descending: self.data_page_boundary_descending,
        }
    }
}
