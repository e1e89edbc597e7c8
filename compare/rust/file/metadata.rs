//! Stand-in: level histograms, the builders of the page index and a chunk's metadata.

use super::page_index::column_index::{ColumnIndexMetaData, Entry};
use super::page_index::offset_index::{OffsetIndexMetaData, PageLocation};
use super::statistics::Statistics;
use crate::basic::{BoundaryOrder, Compression, Encoding, EncodingMask, PageType, Type};
use crate::errors::Result;
use crate::geospatial::statistics::GeospatialStatistics;
use crate::schema::types::ColumnDescPtr;

#[derive(Clone, Debug, PartialEq)]
pub struct KeyValue {
    pub key: String,
    pub value: Option<String>,
}

#[derive(Clone, Debug, PartialEq)]
pub struct SortingColumn;

pub trait HeapSize {
    fn heap_size(&self) -> usize;
}

macro_rules! no_heap {
    ($($ty:ty),*) => {$(
        impl HeapSize for $ty {
            fn heap_size(&self) -> usize {
                0
            }
        }
    )*};
}

no_heap!(bool, i32, i64, f32, f64);

/// How often each level from 0 to the maximum was met; there is none where the maximum is 0.
#[derive(Clone, Debug, PartialEq)]
pub struct LevelHistogram(Vec<i64>);

impl LevelHistogram {
    pub fn try_new(max_level: i16) -> Option<Self> {
        (max_level > 0).then(|| LevelHistogram(vec![0; max_level as usize + 1]))
    }

    pub fn values(&self) -> &[i64] {
        &self.0
    }

    pub fn increment_by(&mut self, level: i16, count: i64) {
        self.0[level as usize] += count;
    }

    pub fn add(&mut self, other: &LevelHistogram) {
        for (sum, count) in self.0.iter_mut().zip(&other.0) {
            *sum += count;
        }
    }

    pub fn reset(&mut self) {
        self.0.fill(0);
    }
}

pub struct ColumnIndexBuilder {
    valid: bool,
    built: ColumnIndexMetaData,
}

impl ColumnIndexBuilder {
    pub fn new(_: Type) -> Self {
        ColumnIndexBuilder {
            valid: true,
            built: ColumnIndexMetaData {
                entries: vec![],
                histograms: vec![],
                boundary_order: BoundaryOrder::UNORDERED,
            },
        }
    }

    pub fn append(&mut self, null_page: bool, min: Vec<u8>, max: Vec<u8>, null_count: i64, nan_count: Option<i64>) {
        self.built.entries.push(Entry {
            null_page,
            min,
            max,
            null_count,
            nan_count,
        });
    }

    pub fn append_histograms(&mut self, rep: &Option<LevelHistogram>, def: &Option<LevelHistogram>) {
        if self.valid {
            self.built.histograms.push((rep.clone(), def.clone()));
        }
    }

    pub fn set_boundary_order(&mut self, order: BoundaryOrder) {
        self.built.boundary_order = order;
    }

    pub fn to_invalid(&mut self) {
        self.valid = false;
    }

    pub fn valid(&self) -> bool {
        self.valid
    }

    pub fn build(self) -> Result<ColumnIndexMetaData> {
        Ok(self.built)
    }
}

#[derive(Default)]
pub struct OffsetIndexBuilder {
    places: Vec<(i64, i32)>,
    rows: Vec<i64>,
}

impl OffsetIndexBuilder {
    pub fn new() -> Self {
        Self::default()
    }

    pub fn append_row_count(&mut self, rows: i64) {
        self.rows.push(rows);
    }

    pub fn append_offset_and_size(&mut self, offset: i64, size: i32) {
        self.places.push((offset, size));
    }

    pub fn append_unencoded_byte_array_data_bytes(&mut self, _: Option<i64>) {}

    pub fn build(self) -> OffsetIndexMetaData {
        let mut first_row_index = 0;
        let mut page_locations = vec![];
        for ((offset, compressed_page_size), rows) in self.places.into_iter().zip(self.rows) {
            page_locations.push(PageLocation {
                offset,
                compressed_page_size,
                first_row_index,
            });
            first_row_index += rows;
        }
        OffsetIndexMetaData { page_locations }
    }
}

#[derive(Clone, Debug)]
pub struct PageEncodingStats {
    pub page_type: PageType,
    pub encoding: Encoding,
    pub count: i32,
}

#[derive(Clone, Debug, Default)]
pub struct ColumnChunkMetaData {
    pub num_values: i64,
    pub statistics: Option<Statistics>,
    pub repetition_level_histogram: Option<LevelHistogram>,
    pub definition_level_histogram: Option<LevelHistogram>,
}

impl ColumnChunkMetaData {
    pub fn builder(_: ColumnDescPtr) -> ColumnChunkMetaDataBuilder {
        ColumnChunkMetaDataBuilder(Self::default())
    }

    pub fn into_builder(self) -> ColumnChunkMetaDataBuilder {
        ColumnChunkMetaDataBuilder(self)
    }
}

pub struct ColumnChunkMetaDataBuilder(ColumnChunkMetaData);

macro_rules! ignored {
    ($($name:ident: $ty:ty),*) => {$(
        pub fn $name(self, _: $ty) -> Self {
            self
        }
    )*};
}

impl ColumnChunkMetaDataBuilder {
    ignored! {
        set_compression: Compression, set_encodings_mask: EncodingMask, set_page_encoding_stats: Vec<PageEncodingStats>,
        set_total_compressed_size: i64, set_total_uncompressed_size: i64, set_data_page_offset: i64,
        set_dictionary_page_offset: Option<i64>, set_unencoded_byte_array_data_bytes: Option<i64>,
        set_geo_statistics: Box<GeospatialStatistics>
    }

    pub fn set_num_values(mut self, num_values: i64) -> Self {
        self.0.num_values = num_values;
        self
    }

    pub fn set_statistics(mut self, statistics: Statistics) -> Self {
        self.0.statistics = Some(statistics);
        self
    }

    pub fn set_repetition_level_histogram(mut self, histogram: Option<LevelHistogram>) -> Self {
        self.0.repetition_level_histogram = histogram;
        self
    }

    pub fn set_definition_level_histogram(mut self, histogram: Option<LevelHistogram>) -> Self {
        self.0.definition_level_histogram = histogram;
        self
    }

    pub fn build(self) -> Result<ColumnChunkMetaData> {
        Ok(self.0)
    }
}

/// Page headers, which the comparison writes none of.
pub mod thrift {
    use crate::basic::{Encoding, PageType};

    pub struct PageStatistics {
        pub max: Option<Vec<u8>>,
        pub min: Option<Vec<u8>>,
        pub null_count: Option<i64>,
        pub distinct_count: Option<i64>,
        pub max_value: Option<Vec<u8>>,
        pub min_value: Option<Vec<u8>>,
        pub is_max_value_exact: Option<bool>,
        pub is_min_value_exact: Option<bool>,
        pub nan_count: Option<i64>,
    }

    pub struct DataPageHeader {
        pub num_values: i32,
        pub encoding: Encoding,
        pub definition_level_encoding: Encoding,
        pub repetition_level_encoding: Encoding,
        pub statistics: Option<PageStatistics>,
    }

    pub struct DataPageHeaderV2 {
        pub num_values: i32,
        pub num_nulls: i32,
        pub num_rows: i32,
        pub encoding: Encoding,
        pub definition_levels_byte_length: i32,
        pub repetition_levels_byte_length: i32,
        pub is_compressed: Option<bool>,
        pub statistics: Option<PageStatistics>,
    }

    pub struct DictionaryPageHeader {
        pub num_values: i32,
        pub encoding: Encoding,
        pub is_sorted: Option<bool>,
    }

    pub struct PageHeader {
        pub r#type: PageType,
        pub uncompressed_page_size: i32,
        pub compressed_page_size: i32,
        pub crc: Option<i32>,
        pub data_page_header: Option<DataPageHeader>,
        pub index_page_header: Option<()>,
        pub dictionary_page_header: Option<DictionaryPageHeader>,
        pub data_page_header_v2: Option<DataPageHeaderV2>,
    }
}
