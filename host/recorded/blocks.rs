//! Blocks and files with every part given, where the files of `files.rs` have parts drawn by chance.
use crate::files::{packed, Block, File};
use crate::random::Random;

pub fn differences(base: i32, width: u32, values: &[i32]) -> Block {
    Block { base, bits: width as i16, flags: 0, padding: 0, run: packed(values, width) }
}

pub fn raw(width: u32, values: &[i32]) -> Block {
    Block { bits: -(width as i16), ..differences(0, width, values) }
}

/// Bits 0: raw at the file's depth.
pub fn at_depth(depth: u16, values: &[i32]) -> Block {
    Block { bits: 0, ..differences(0, depth.into(), values) }
}

pub fn flagged(flags: u16, block: Block) -> Block {
    Block { flags, ..block }
}

/// A group's values, any of the width's.
pub fn noise(width: u32, random: &mut Random) -> Vec<i32> {
    (0..512).map(|_| random.signed(width)).collect()
}

pub fn noisy(width: u32, random: &mut Random) -> Block {
    differences(random.signed(32), width, &noise(width, random))
}

pub fn noisy_raw(width: u32, random: &mut Random) -> Block {
    raw(width, &noise(width, random))
}

/// A file without gap and tail, at 44,100.
pub fn file(channels: u16, depth: u16, frames: u32, groups: Vec<Vec<Block>>) -> File {
    let (unknown, gap, tail) = (vec![0; 88], Vec::new(), Vec::new());
    File { mark: 0x31, channels, depth, rate: 44_100, frames, unknown, gap, groups, tail }
}

/// A file of blocks that `block` makes, for each group and channel in order.
pub fn filled(channels: u16, frames: u32, mut block: impl FnMut() -> Block) -> File {
    let mut group = || (0..channels).map(|_| block()).collect();
    file(channels, 16, frames, (0..frames.div_ceil(512)).map(|_| group()).collect())
}
