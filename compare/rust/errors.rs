//! Stand-in: the error type and the macros that make one.

use std::fmt;

#[derive(Debug)]
pub enum ParquetError {
    General(String),
    EOF(String),
}

pub type Result<T, E = ParquetError> = std::result::Result<T, E>;

impl fmt::Display for ParquetError {
    fn fmt(&self, f: &mut fmt::Formatter) -> fmt::Result {
        match self {
            ParquetError::General(said) | ParquetError::EOF(said) => f.write_str(said),
        }
    }
}

impl std::error::Error for ParquetError {}

impl From<std::io::Error> for ParquetError {
    fn from(e: std::io::Error) -> Self {
        ParquetError::General(e.to_string())
    }
}

impl From<std::str::Utf8Error> for ParquetError {
    fn from(e: std::str::Utf8Error) -> Self {
        ParquetError::General(e.to_string())
    }
}

macro_rules! general_err {
    ($($arg:tt)*) => (crate::errors::ParquetError::General(format!($($arg)*)));
}

macro_rules! eof_err {
    ($($arg:tt)*) => (crate::errors::ParquetError::EOF(format!($($arg)*)));
}
