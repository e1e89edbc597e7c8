//! Stand-in: no compression.

use crate::basic::Compression;
use crate::errors::Result;

pub trait Codec: Send {
    fn compress(&mut self, input: &[u8], output: &mut Vec<u8>) -> Result<()>;
}

#[derive(Clone, Debug, Default)]
pub struct CodecOptions;

#[derive(Default)]
pub struct CodecOptionsBuilder;

impl CodecOptionsBuilder {
    pub fn set_backward_compatible_lz4(self, _: bool) -> Self {
        self
    }

    pub fn build(self) -> CodecOptions {
        CodecOptions
    }
}

pub fn create_codec(_: Compression, _: &CodecOptions) -> Result<Option<Box<dyn Codec>>> {
    Ok(None)
}
