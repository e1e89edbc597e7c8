//! The module tree around arrow/record_reader/buffer.rs, which is theirs and which nothing here calls.

pub mod buffer {
    pub mod bit_util {
        /// Positions of the set bits, from the last to the first.
        pub fn iter_set_bits_rev(bytes: &[u8]) -> impl Iterator<Item = usize> + '_ {
            (0..8 * bytes.len())
                .rev()
                .filter(|bit| bytes[bit / 8] >> (bit % 8) & 1 == 1)
        }
    }
}

pub mod record_reader {
    pub mod buffer;
}
