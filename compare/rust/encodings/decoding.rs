//! Stand-in: names of the decoders, which nothing here calls.

use crate::util::bit_util::BitReader;
use bytes::Bytes;

pub struct PlainDecoderDetails {
    pub num_values: usize,
    pub start: usize,
    pub data: Option<Bytes>,
    pub type_length: i32,
    pub bit_reader: Option<BitReader>,
}

pub mod private {
    pub trait GetDecoder {}

    impl<T: crate::encodings::encoding::private::GetEncoder> GetDecoder for T {}
}
