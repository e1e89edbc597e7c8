//! Stand-in: the value encoders PLAIN and BYTE_STREAM_SPLIT, and a dictionary encoder that is never made.

use crate::basic::Encoding;
use crate::data_type::DataType;
use crate::data_type::private::ParquetValueType;
use crate::errors::Result;
use crate::schema::types::ColumnDescPtr;
use crate::util::bit_util::BitWriter;
use bytes::Bytes;
use std::convert::Infallible;
use std::marker::PhantomData;

pub mod private {
    use crate::data_type::{ByteArray, FixedLenByteArray, Int96};

    pub trait GetEncoder {}

    impl GetEncoder for bool {}
    impl GetEncoder for i32 {}
    impl GetEncoder for i64 {}
    impl GetEncoder for f32 {}
    impl GetEncoder for f64 {}
    impl GetEncoder for Int96 {}
    impl GetEncoder for ByteArray {}
    impl GetEncoder for FixedLenByteArray {}
}

pub trait Encoder<T: DataType>: Send {
    fn put(&mut self, values: &[T::T]) -> Result<()>;
    fn encoding(&self) -> Encoding;
    fn estimated_data_encoded_size(&self) -> usize;
    fn estimated_memory_size(&self) -> usize;
    fn flush_buffer(&mut self) -> Result<Bytes>;
}

/// PLAIN bytes by the sources' own `ParquetValueType::encode`; BYTE_STREAM_SPLIT turns them round when they are flushed.
struct Buffered {
    encoding: Encoding,
    buffer: Vec<u8>,
    values: usize,
}

impl<T: DataType> Encoder<T> for Buffered {
    fn put(&mut self, values: &[T::T]) -> Result<()> {
        self.values += values.len();
        T::T::encode(values, &mut self.buffer, &mut BitWriter)
    }

    fn encoding(&self) -> Encoding {
        self.encoding
    }

    fn estimated_data_encoded_size(&self) -> usize {
        self.buffer.len()
    }

    fn estimated_memory_size(&self) -> usize {
        self.buffer.len()
    }

    fn flush_buffer(&mut self) -> Result<Bytes> {
        let plain = std::mem::take(&mut self.buffer);
        let values = std::mem::take(&mut self.values);
        Ok(match self.encoding {
            Encoding::BYTE_STREAM_SPLIT => split(&plain, values).into(),
            _ => plain.into(),
        })
    }
}

/// The format's BYTE_STREAM_SPLIT: byte j of value i goes to place j * n + i.
fn split(plain: &[u8], values: usize) -> Vec<u8> {
    let width = plain.len().checked_div(values).unwrap_or(0);
    (0..width)
        .flat_map(|j| (0..values).map(move |i| plain[i * width + j]))
        .collect()
}

pub fn get_encoder<T: DataType>(encoding: Encoding, _: &ColumnDescPtr) -> Result<Box<dyn Encoder<T>>> {
    match encoding {
        Encoding::PLAIN | Encoding::BYTE_STREAM_SPLIT => Ok(Box::new(Buffered {
            encoding,
            buffer: vec![],
            values: 0,
        })),
        other => Err(general_err!("no encoder for {other} here")),
    }
}

/// No column of the comparison has a dictionary.
pub struct DictEncoder<T: DataType> {
    never: Infallible,
    data_type: PhantomData<T>,
}

impl<T: DataType> DictEncoder<T> {
    pub fn new(_: ColumnDescPtr) -> Self {
        unreachable!("no dictionary here")
    }

    pub fn put(&mut self, _: &[T::T]) -> Result<()> {
        match self.never {}
    }

    pub fn uniques(&self) -> &[T::T] {
        match self.never {}
    }

    pub fn write_dict(&self) -> Result<Bytes> {
        match self.never {}
    }

    pub fn write_indices(&mut self) -> Result<Bytes> {
        match self.never {}
    }

    pub fn num_entries(&self) -> usize {
        match self.never {}
    }

    pub fn is_sorted(&self) -> bool {
        match self.never {}
    }

    pub fn dict_encoded_size(&self) -> usize {
        match self.never {}
    }

    pub fn estimated_memory_size(&self) -> usize {
        match self.never {}
    }

    pub fn estimated_data_encoded_size(&self) -> usize {
        match self.never {}
    }
}
