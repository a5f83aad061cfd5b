//! The crate over the archive, held to document 01.
#[allow(dead_code)]
#[path = "../../../recorded/blocks.rs"]
mod blocks;
mod cases;
#[allow(dead_code)]
#[path = "../../../definitions/files.rs"]
mod files;
mod inputs;
#[allow(dead_code)]
#[path = "../../../definitions/random.rs"]
mod random;
mod refusals;
mod room;

use ncw::{NcwError, NcwReader};
use std::io::Cursor;

fn read(file: &[u8]) -> Result<NcwReader<Cursor<&[u8]>>, NcwError> {
    NcwReader::read(Cursor::new(file))
}

fn decoded(file: &[u8]) -> Result<Vec<i32>, NcwError> {
    read(file)?.decode_samples()
}
