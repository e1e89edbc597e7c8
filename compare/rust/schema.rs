//! Stand-in: what a column is.

pub mod types {
    use crate::basic::{ConvertedType, LogicalType, SortOrder, Type};
    use std::sync::Arc;

    #[derive(Clone, Debug, Default, PartialEq, Eq, PartialOrd, Ord, Hash)]
    pub struct ColumnPath(Vec<String>);

    impl ColumnPath {
        pub fn new(parts: Vec<String>) -> Self {
            ColumnPath(parts)
        }
    }

    impl From<&str> for ColumnPath {
        fn from(name: &str) -> Self {
            ColumnPath(vec![name.to_string()])
        }
    }

    impl From<String> for ColumnPath {
        fn from(name: String) -> Self {
            ColumnPath(vec![name])
        }
    }

    #[derive(Clone, Debug)]
    pub struct BasicTypeInfo {
        pub converted_type: ConvertedType,
        pub logical_type: Option<LogicalType>,
        pub sort_order: SortOrder,
    }

    impl BasicTypeInfo {
        pub fn converted_type(&self) -> ConvertedType {
            self.converted_type
        }

        pub fn logical_type_ref(&self) -> Option<&LogicalType> {
            self.logical_type.as_ref()
        }

        pub fn sort_order(&self) -> SortOrder {
            self.sort_order
        }
    }

    pub type ColumnDescPtr = Arc<ColumnDescriptor>;

    #[derive(Clone, Debug)]
    pub struct ColumnDescriptor {
        pub path: ColumnPath,
        pub info: BasicTypeInfo,
        pub physical_type: Type,
        pub max_def_level: i16,
        pub max_rep_level: i16,
    }

    impl ColumnDescriptor {
        pub fn path(&self) -> &ColumnPath {
            &self.path
        }

        pub fn get_basic_info(&self) -> &BasicTypeInfo {
            &self.info
        }

        pub fn physical_type(&self) -> Type {
            self.physical_type
        }

        pub fn converted_type(&self) -> ConvertedType {
            self.info.converted_type()
        }

        pub fn logical_type_ref(&self) -> Option<&LogicalType> {
            self.info.logical_type_ref()
        }

        pub fn sort_order(&self) -> SortOrder {
            self.info.sort_order()
        }

        pub fn max_def_level(&self) -> i16 {
            self.max_def_level
        }

        pub fn max_rep_level(&self) -> i16 {
            self.max_rep_level
        }
    }
}
