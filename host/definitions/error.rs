//! The error type that the Rust original names and that was not given with it.
use std::io;

#[derive(Debug)]
pub enum NcwError {
    Io(io::Error),
    InvalidFileSignature,
    InvalidBlockSignature,
    InvalidHeader(&'static str),
    UnsupportedBitDepth(i16),
}

impl From<io::Error> for NcwError {
    fn from(error: io::Error) -> Self {
        NcwError::Io(error)
    }
}
