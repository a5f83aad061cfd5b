//! What either side says of a file: the Rust original, and ours by its drop-in crate.
use crate::asking::{ask, Answer, Question};
use crate::errors::refused;
use crate::input::{Read, Refused};
use std::io::Cursor;

#[derive(Debug, PartialEq)]
pub struct Opened {
    pub channels: u16,
    depth: u16,
    rate: u32,
    pub frames: u32,
    /// Table offset, data offset, data size.
    bounds: [u32; 3],
    offsets: Vec<u32>,
    pub float: bool,
}

pub struct Said {
    pub opened: Result<Opened, Refused>,
    pub decoded: Read,
}

/// Both crates have the same public names, in types of their own.
macro_rules! opened {
    ($side:ident, $reader:expr) => {{
        let h = &$reader.header;
        Opened {
            channels: h.channels,
            depth: h.bits_per_sample,
            rate: h.sample_rate,
            frames: h.num_samples,
            bounds: [h.blocks_offset, h.data_offset, h.data_size],
            offsets: $reader.block_offsets.clone(),
            float: $reader.sample_format == $side::SampleFormat::Float,
        }
    }};
}

impl Said {
    fn refused(refused: Refused) -> Self {
        Said { opened: Err(refused), decoded: Err(refused) }
    }
}

pub fn original(file: &[u8]) -> Said {
    match ncw::NcwReader::read(Cursor::new(file)) {
        Ok(reader) => Said { opened: Ok(opened!(ncw, reader)), decoded: decoded(file) },
        Err(_) => Said::refused(answered(Question::Open(file.to_vec())).expect_err("it was refused before")),
    }
}

/// The samples of a file, by the original.
pub fn decoded(file: &[u8]) -> Read {
    answered(Question::Decode(file.to_vec()))
}

fn answered(question: Question) -> Read {
    match ask(&question) {
        Answer::Refused(number, bits) => Err((number, bits)),
        Answer::Samples(samples) => Ok(samples),
        _ => Ok(Vec::new()),
    }
}

pub fn drop_in(file: &[u8]) -> Said {
    match ours::NcwReader::read(Cursor::new(file)) {
        Ok(mut reader) => Said { opened: Ok(opened!(ours, reader)), decoded: reader.decode_samples().map_err(refused) },
        Err(error) => Said::refused(refused(error)),
    }
}
