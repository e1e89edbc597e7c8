//! Stand-in: no column of the comparison is geospatial.

pub mod accumulator {
    use super::statistics::GeospatialStatistics;
    use crate::schema::types::ColumnDescPtr;

    pub trait GeoStatsAccumulator: Send {
        fn is_valid(&self) -> bool;
        fn update_wkb(&mut self, wkb: &[u8]);
        fn finish(&mut self) -> Option<Box<GeospatialStatistics>>;
    }

    pub fn try_new_geo_stats_accumulator(_: &ColumnDescPtr) -> Option<Box<dyn GeoStatsAccumulator>> {
        None
    }
}

pub mod statistics {
    #[derive(Clone, Debug)]
    pub struct GeospatialStatistics;
}
