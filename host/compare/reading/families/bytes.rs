//! Good files with bytes changed.
use super::{good, Part};
use crate::changed;
use crate::faults::put;
use crate::files::File;

/// Every length of good files, and every short length of bytes that are no file.
pub fn lengths() -> Vec<Part> {
    changed::no_files().into_iter().chain(good::all().iter().map(File::bytes).map(changed::cut)).collect()
}

pub fn values() -> Vec<Part> {
    good::all().iter().map(changed::values).collect()
}

pub fn limits() -> Vec<Part> {
    good::all().iter().flat_map(changed::limits).chain([longest_table()]).collect()
}

/// The most frames there can be, with all of their table and one byte less.
fn longest_table() -> Part {
    Part::new(2, |less| {
        let mut bytes = File { frames: u32::MAX, ..good::groups() }.bytes();
        let start = 120 + 4 * ((1 << 23) + 1);
        put(&mut bytes, 20, 4, 120);
        put(&mut bytes, 24, 4, start as u64);
        put(&mut bytes, 28, 4, 0);
        bytes.resize(start, 0);
        bytes[120..].fill(0);
        bytes.truncate(start - less);
        bytes
    })
}
