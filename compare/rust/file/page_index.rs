//! Stand-in: the built page index, as it was appended.

pub mod column_index {
    use crate::basic::BoundaryOrder;
    use crate::file::metadata::LevelHistogram;

    #[derive(Debug, Clone)]
    pub struct Entry {
        pub null_page: bool,
        pub min: Vec<u8>,
        pub max: Vec<u8>,
        pub null_count: i64,
        pub nan_count: Option<i64>,
    }

    #[derive(Debug, Clone)]
    pub struct ColumnIndexMetaData {
        pub entries: Vec<Entry>,
        pub histograms: Vec<(Option<LevelHistogram>, Option<LevelHistogram>)>,
        pub boundary_order: BoundaryOrder,
    }
}

pub mod offset_index {
    #[derive(Debug, Clone)]
    pub struct PageLocation {
        pub offset: i64,
        pub compressed_page_size: i32,
        pub first_row_index: i64,
    }

    #[derive(Debug, Clone, Default)]
    pub struct OffsetIndexMetaData {
        pub page_locations: Vec<PageLocation>,
    }
}
