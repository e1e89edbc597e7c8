//! Stand-in: bit utilities.

pub mod bit_util {
    use crate::data_type::{ByteArray, FixedLenByteArray, Int96};
    use crate::errors::Result;
    use bytes::Bytes;

    /// How many bits a number has, 0 for 0.
    pub fn num_required_bits(x: u64) -> u8 {
        (u64::BITS - x.leading_zeros()) as u8
    }

    pub fn read_num_bytes<T: From<u32>>(size: usize, src: &[u8]) -> T {
        let mut bytes = [0; 4];
        bytes[..size].copy_from_slice(&src[..size]);
        T::from(u32::from_le_bytes(bytes))
    }

    /// Reads a value off its little-endian bytes.
    pub trait FromBytes: Sized {
        fn try_from_le_slice(bytes: &[u8]) -> Result<Self>;
    }

    macro_rules! from_bytes {
        ($($ty:ty),*) => {$(
            impl FromBytes for $ty {
                fn try_from_le_slice(bytes: &[u8]) -> Result<Self> {
                    let bytes = bytes.try_into().map_err(|_| general_err!("{} bytes", bytes.len()))?;
                    Ok(<$ty>::from_le_bytes(bytes))
                }
            }
        )*};
    }

    from_bytes!(i32, i64, f32, f64);

    impl FromBytes for bool {
        fn try_from_le_slice(bytes: &[u8]) -> Result<Self> {
            Ok(bytes == [1])
        }
    }

    impl FromBytes for Int96 {
        fn try_from_le_slice(bytes: &[u8]) -> Result<Self> {
            Err(general_err!("no INT96 here: {} bytes", bytes.len()))
        }
    }

    impl FromBytes for ByteArray {
        fn try_from_le_slice(bytes: &[u8]) -> Result<Self> {
            Ok(ByteArray::from(bytes))
        }
    }

    impl FromBytes for FixedLenByteArray {
        fn try_from_le_slice(bytes: &[u8]) -> Result<Self> {
            Ok(FixedLenByteArray::from(ByteArray::from(bytes)))
        }
    }

    /// Bits of BOOLEAN values, which the comparison has none of.
    pub struct BitWriter;

    impl BitWriter {
        pub fn put_value(&mut self, _: u64, _: usize) {
            unreachable!("no BOOLEAN here")
        }
    }

    pub struct BitReader;

    impl BitReader {
        pub fn new(_: Bytes) -> Self {
            BitReader
        }

        pub fn get_batch<T>(&mut self, _: &mut [T], _: usize) -> usize {
            unreachable!("no BOOLEAN here")
        }

        pub fn skip(&mut self, _: usize, _: usize) -> usize {
            unreachable!("no BOOLEAN here")
        }
    }
}
