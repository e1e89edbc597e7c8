//! Stand-in: the format's enumerations, as far as the sources name their members.

#![allow(non_camel_case_types)]

use std::fmt;

#[derive(Clone, Copy, Debug, PartialEq, Eq, Hash)]
pub enum Type {
    BOOLEAN,
    INT32,
    INT64,
    INT96,
    FLOAT,
    DOUBLE,
    BYTE_ARRAY,
    FIXED_LEN_BYTE_ARRAY,
}

impl fmt::Display for Type {
    fn fmt(&self, f: &mut fmt::Formatter) -> fmt::Result {
        write!(f, "{self:?}")
    }
}

#[derive(Clone, Copy, Debug, PartialEq, Eq)]
pub enum ConvertedType {
    NONE,
    UTF8,
    DECIMAL,
    UINT_32,
    UINT_64,
    INTERVAL,
}

#[derive(Clone, Copy, Debug, PartialEq, Eq)]
pub struct DecimalType {
    pub precision: i32,
    pub scale: i32,
}

#[derive(Clone, Copy, Debug, PartialEq, Eq)]
pub enum LogicalType {
    String,
    Decimal(DecimalType),
    Float16,
}

/// How the values of a column are ordered: TOTAL_ORDER is IEEE 754's, for FLOAT, DOUBLE and Float16.
#[derive(Clone, Copy, Debug, PartialEq, Eq)]
pub enum SortOrder {
    SIGNED,
    UNSIGNED,
    TOTAL_ORDER,
}

impl SortOrder {
    pub fn is_signed(&self) -> bool {
        matches!(self, SortOrder::SIGNED)
    }
}

#[derive(Clone, Copy, Debug, PartialEq, Eq)]
pub enum BoundaryOrder {
    UNORDERED,
    ASCENDING,
    DESCENDING,
}

#[derive(Clone, Copy, Debug, PartialEq, Eq)]
pub enum Compression {
    UNCOMPRESSED,
}

#[derive(Clone, Copy, Debug, PartialEq, Eq, PartialOrd, Ord, Hash)]
pub enum Encoding {
    PLAIN,
    PLAIN_DICTIONARY,
    RLE,
    DELTA_BINARY_PACKED,
    DELTA_BYTE_ARRAY,
    RLE_DICTIONARY,
    BYTE_STREAM_SPLIT,
}

impl fmt::Display for Encoding {
    fn fmt(&self, f: &mut fmt::Formatter) -> fmt::Result {
        write!(f, "{self:?}")
    }
}

#[derive(Clone, Copy, Debug, PartialEq, Eq)]
pub enum PageType {
    DATA_PAGE,
    INDEX_PAGE,
    DICTIONARY_PAGE,
    DATA_PAGE_V2,
}

#[derive(Clone, Copy, Debug, Default)]
pub struct EncodingMask;

impl EncodingMask {
    pub fn new_from_encodings<'a>(_: impl Iterator<Item = &'a Encoding>) -> Self {
        EncodingMask
    }
}
