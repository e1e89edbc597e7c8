//! Columns of each kind, as the sources take them.

use super::line::Kind;
use crate::basic::{ConvertedType, DecimalType, Encoding, LogicalType, SortOrder, Type};
use crate::data_type::private::ParquetValueType;
use crate::data_type::{ByteArray, FixedLenByteArray};
use crate::schema::types::{BasicTypeInfo, ColumnDescPtr, ColumnDescriptor, ColumnPath};
use std::sync::Arc;

/// The column of a kind. A kind without decoration is the same with and without its logical type.
pub fn column(kind: Kind, max_def_level: i16, max_rep_level: i16) -> ColumnDescPtr {
    let decimal = LogicalType::Decimal(DecimalType { precision: 9, scale: 0 });
    let (physical_type, logical, converted_type, sort_order) = match kind.number {
        1 => (Type::INT32, None, ConvertedType::NONE, SortOrder::SIGNED),
        2 => (Type::INT32, None, ConvertedType::UINT_32, SortOrder::UNSIGNED),
        3 => (Type::INT64, None, ConvertedType::NONE, SortOrder::SIGNED),
        4 => (Type::INT64, None, ConvertedType::UINT_64, SortOrder::UNSIGNED),
        5 => (Type::FLOAT, None, ConvertedType::NONE, SortOrder::TOTAL_ORDER),
        6 => (Type::DOUBLE, None, ConvertedType::NONE, SortOrder::TOTAL_ORDER),
        7 => (
            Type::FIXED_LEN_BYTE_ARRAY,
            Some(LogicalType::Float16),
            ConvertedType::NONE,
            SortOrder::TOTAL_ORDER,
        ),
        8 => (Type::BYTE_ARRAY, None, ConvertedType::NONE, SortOrder::UNSIGNED),
        9 => (
            Type::FIXED_LEN_BYTE_ARRAY,
            None,
            ConvertedType::NONE,
            SortOrder::UNSIGNED,
        ),
        10 => (
            Type::BYTE_ARRAY,
            Some(LogicalType::String),
            ConvertedType::UTF8,
            SortOrder::UNSIGNED,
        ),
        11 => (
            Type::BYTE_ARRAY,
            Some(decimal),
            ConvertedType::DECIMAL,
            SortOrder::SIGNED,
        ),
        _ => (
            Type::FIXED_LEN_BYTE_ARRAY,
            Some(decimal),
            ConvertedType::DECIMAL,
            SortOrder::SIGNED,
        ),
    };
    Arc::new(ColumnDescriptor {
        path: ColumnPath::from("column"),
        info: BasicTypeInfo {
            converted_type,
            logical_type: logical.filter(|_| !kind.converted),
            sort_order,
        },
        physical_type,
        max_def_level,
        max_rep_level,
    })
}

/// A value by its bytes, absent where the type has no value of that length.
pub trait Typed: ParquetValueType {
    fn typed(bytes: &[u8]) -> Option<Self>;
}

macro_rules! typed_numbers {
    ($($ty:ty),*) => {$(
        impl Typed for $ty {
            fn typed(bytes: &[u8]) -> Option<Self> {
                Some(<$ty>::from_le_bytes(bytes.try_into().ok()?))
            }
        }
    )*};
}

typed_numbers!(i32, i64, f32, f64);

impl Typed for ByteArray {
    fn typed(bytes: &[u8]) -> Option<Self> {
        Some(bytes.into())
    }
}

impl Typed for FixedLenByteArray {
    fn typed(bytes: &[u8]) -> Option<Self> {
        Some(ByteArray::from(bytes).into())
    }
}

/// Evaluates the second argument with `$d` as the kind's data type.
macro_rules! with_type {
    ($kind:expr, $d:ident => $body:expr) => {{
        use crate::data_type::{ByteArrayType, DoubleType, FixedLenByteArrayType, FloatType, Int32Type, Int64Type};
        match $kind.number {
            1 | 2 => {
                type $d = Int32Type;
                $body
            }
            3 | 4 => {
                type $d = Int64Type;
                $body
            }
            5 => {
                type $d = FloatType;
                $body
            }
            6 => {
                type $d = DoubleType;
                $body
            }
            8 | 10 | 11 => {
                type $d = ByteArrayType;
                $body
            }
            _ => {
                type $d = FixedLenByteArrayType;
                $body
            }
        }
    }};
}

pub(super) use with_type;
