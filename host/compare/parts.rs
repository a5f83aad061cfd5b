//! The parts of a file whose blocks lie as its numbers say.
use crate::faults::put;
pub use crate::files::{Block, File};

struct Bytes<'a>(&'a [u8]);

impl Bytes<'_> {
    fn take(&mut self, n: usize) -> Option<Vec<u8>> {
        let (front, rest) = self.0.split_at_checked(n)?;
        self.0 = rest;
        Some(front.to_vec())
    }

    fn number(&mut self, n: usize) -> Option<u32> {
        Some(self.take(n)?.iter().rev().fold(0, |number, byte| number << 8 | u32::from(*byte)))
    }

    fn block(&mut self, depth: u16) -> Option<Block> {
        self.take(4)?;
        let (base, bits) = (self.number(4)? as i32, self.number(2)? as i16);
        let (flags, padding) = (self.number(2)? as u16, self.number(4)?);
        let width = if bits == 0 { depth } else { bits.unsigned_abs() };
        let run = self.take(64 * usize::from(width))?;
        (width <= 32).then_some(Block { base, bits, flags, padding, run })
    }
}

pub fn parts(file: &[u8]) -> Option<File> {
    let mut bytes = Bytes(file);
    let mark = bytes.take(8)?[4];
    let (channels, depth) = (bytes.number(2)? as u16, bytes.number(2)? as u16);
    let (rate, frames, table) = (bytes.number(4)?, bytes.number(4)?, bytes.number(4)?);
    bytes.take(8)?;
    let unknown = bytes.take(88)?;
    let gap = bytes.take((table as usize).checked_sub(120)?)?;
    bytes.take(4 * (frames.div_ceil(512) as usize + 1))?;
    let mut group = || (0..channels).map(|_| bytes.block(depth)).collect::<Option<Vec<_>>>();
    let groups = (0..frames.div_ceil(512)).map(|_| group()).collect::<Option<Vec<_>>>()?;
    let tail = bytes.0.to_vec();
    let whole = channels > 0;
    whole.then_some(File { mark, channels, depth, rate, frames, unknown, gap, groups, tail })
}

/// The file's header, with one frame and a group of as few bytes as opening accepts: the first of the file's data.
pub fn short_group(file: &[u8], channels: usize) -> Option<Vec<u8>> {
    let start = Bytes(file.get(24..)?).number(4)? as usize;
    let data = file.get(start..start + 80 * channels)?;
    let mut out = [&file[..120], &[0; 8], data].concat();
    for (at, n, value) in
        [(8, 2, channels), (16, 4, 1), (20, 4, 120), (24, 4, 128), (28, 4, data.len()), (124, 4, data.len())]
    {
        put(&mut out, at, n, value as u64);
    }
    Some(out)
}

/// The file with so many of its groups, from the first on, which are fewer than it has. Its table ends where it did.
pub fn first_groups(file: &[u8], groups: u32) -> Option<Vec<u8>> {
    let number = |at: usize| Bytes(file.get(at..)?).number(4);
    let (frames, table, start) = (number(16)?, number(20)? as usize, number(24)? as usize);
    if groups >= frames.div_ceil(512) {
        return None;
    }
    let length = 4 * (groups as usize + 1);
    let size = number(table + length - 4)?;
    let mut out = file.to_vec();
    out.copy_within(table..table + length, start - length);
    for (at, value) in [(16, 512 * groups), (20, (start - length) as u32), (28, size)] {
        put(&mut out, at, 4, value.into());
    }
    Some(out)
}
