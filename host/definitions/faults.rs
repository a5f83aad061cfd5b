//! Faults: one part of a file set to something else.
use crate::files::Places;
use crate::random::Random;

#[derive(Clone, Copy)]
pub enum Fault {
    Signature,
    Channels,
    Depth,
    Rate,
    Frames,
    TableOffset,
    DataOffset,
    DataSize,
    FirstEntry,
    AnyEntry,
    LastEntry,
    DataEnd,
    DataLonger,
    BlockMark,
    FirstMark,
    Bits,
    Flags,
    MidBit,
    FloatBit,
    Cut,
}

use Fault::*;

/// What opening looks at.
#[rustfmt::skip]
pub const IN_FILES_TO_OPEN: &[Fault] = &[
    Signature, Channels, Depth, Rate, Frames, TableOffset, TableOffset, DataOffset, DataSize,
    FirstEntry, AnyEntry, AnyEntry, LastEntry, DataEnd, DataEnd, FirstMark, Bits, FloatBit, Cut,
];

/// What decoding looks at besides.
#[rustfmt::skip]
pub const IN_FILES_TO_DECODE: &[Fault] = &[
    Signature, Channels, Depth, Rate, Frames, TableOffset, DataOffset, DataSize,
    AnyEntry, LastEntry, DataEnd, DataLonger, BlockMark, BlockMark, Bits, Bits, Bits,
    Flags, MidBit, MidBit, FloatBit, FloatBit, Cut,
];

/// What re-encoding looks at in a template.
#[rustfmt::skip]
pub const IN_TEMPLATES: &[Fault] = &[
    Signature, Channels, Depth, Rate, Frames, TableOffset, DataOffset, DataSize, FirstEntry,
    AnyEntry, AnyEntry, LastEntry, DataEnd, DataEnd, DataEnd, DataLonger, DataLonger,
    BlockMark, BlockMark, Bits, Bits, Bits, Bits, Flags, Flags, MidBit, MidBit, Cut,
];

impl Fault {
    pub fn apply(self, bytes: &mut Vec<u8>, places: &Places, random: &mut Random) {
        match self {
            Signature => flip(bytes, random.below(8), random),
            Channels => put(bytes, 8, 2, random.pick(&[0, 0, 0, 0, 1, 2, 3, 6, 65535])),
            Depth => put(bytes, 10, 2, random.pick(&[0, 1, 7, 8, 9, 15, 16, 17, 24, 31, 32, 33, 65535])),
            Rate => put(bytes, 12, 4, random.pick(&[0, 0, 0, 1, 0xFFFF_FFFF])),
            Frames => put(bytes, 16, 4, frames(places, random)),
            TableOffset => put(bytes, 20, 4, table_offset(places, random)),
            DataOffset => put(bytes, 24, 4, data_offset(places, random)),
            DataSize => data_size(bytes, places, random),
            FirstEntry => put(bytes, places.table, 4, random.pick(&[1, 16, 80, places.size as u64, 0xFFFF_FFFF])),
            AnyEntry => any_entry(bytes, places, random),
            LastEntry => put(bytes, places.start - 4, 4, near(places.size, random)),
            DataEnd => data_end(bytes, places, random),
            DataLonger => data_longer(bytes, places, random),
            BlockMark => in_block(bytes, places, random, |bytes, at, random| flip(bytes, at + random.below(4), random)),
            FirstMark => flip(bytes, places.start + random.below(4), random),
            Bits => in_block(bytes, places, random, bits),
            Flags => in_block(bytes, places, random, flags),
            MidBit => mid_bit(bytes, places, random),
            FloatBit => in_block(bytes, places, random, |bytes, at, _| toggle(bytes, at + 10, 2)),
            Cut => cut(bytes, places, random),
        }
    }
}

/// Sets the `n` bytes from `at`, as far as they are there.
pub fn put(bytes: &mut [u8], at: usize, n: usize, value: u64) {
    for (k, byte) in bytes.iter_mut().skip(at).take(n).enumerate() {
        *byte = (value >> (8 * k)) as u8;
    }
}

pub fn toggle(bytes: &mut [u8], at: usize, mask: u8) {
    if let Some(byte) = bytes.get_mut(at) {
        *byte ^= mask;
    }
}

fn flip(bytes: &mut [u8], at: usize, random: &mut Random) {
    toggle(bytes, at, random.pick(&[1, 2, 16, 128, 255]));
}

fn near(number: usize, random: &mut Random) -> u64 {
    let number = number as u64;
    random.pick(&[0, number.saturating_sub(1), number + 1, number + 4, 0xFFFF_FFFF])
}

fn frames(places: &Places, random: &mut Random) -> u64 {
    let old = u64::from(places.frames);
    random.pick(&[0, 1, old.saturating_sub(1), old + 1, 512, 513, 1024, 0xFFFF_FFFF])
}

fn table_offset(places: &Places, random: &mut Random) -> u64 {
    let (table, start) = (places.table as u64, places.start as u64);
    random.pick(&[0, 119, 120, table - 1, table + 1, table + 4, start, start + 1, 0xFFFF_FFFF])
}

fn data_offset(places: &Places, random: &mut Random) -> u64 {
    let (table, start) = (places.table as u64, places.start as u64);
    random.pick(&[0, 120, table - 1, table, start - 4, start - 1, start + 1, start + 4, 0xFFFF_FFFF])
}

/// Up to the last byte, past it, or near what it was.
fn data_size(bytes: &mut [u8], places: &Places, random: &mut Random) {
    let rest = bytes.len().saturating_sub(places.start) as u64;
    let near = near(places.size, random);
    put(bytes, 28, 4, random.pick(&[rest + 1, rest + 1, rest, near]));
}

/// An entry within its bounds, at them and past them.
fn any_entry(bytes: &mut [u8], places: &Places, random: &mut Random) {
    let k = random.below(places.blocks.len() + 1);
    let least = 80 * places.channels;
    let inside = [
        0,
        1,
        least - 1,
        least,
        places.size.saturating_sub(least),
        (places.size + 1).saturating_sub(least),
        places.size,
    ];
    let value = if random.once_in(3) { near(places.size, random) } else { random.pick(&inside) as u64 };
    put(bytes, places.table + 4 * k, 4, value);
}

/// The data size and the last entry together: groups too short, empty, or with bytes left, mostly within the file.
fn data_end(bytes: &mut [u8], places: &Places, random: &mut Random) {
    let last = places.blocks.last().map_or(0, |group| group[0] - places.start);
    let least = 80 * places.channels;
    let mut ends = vec![0, 0, 0, 1, 9, 11, 12, 15, 16, least - 1, least, places.size, places.size + 1];
    ends.extend([0, 11, 12, 15, 16, least - 1, least].map(|end| last + end));
    if !random.once_in(6) {
        ends.retain(|end| *end == 0 || places.start + end <= bytes.len());
    }
    let end = random.pick(&ends);
    set_end(bytes, places, end);
}

/// Bytes left in the last group.
fn data_longer(bytes: &mut Vec<u8>, places: &Places, random: &mut Random) {
    let (end, more) = (places.start + places.size, random.pick(&[1, 15, 16, 64]));
    if end <= bytes.len() {
        bytes.splice(end..end, random.bytes(more));
        set_end(bytes, places, places.size + more);
    }
}

pub fn set_end(bytes: &mut [u8], places: &Places, end: usize) {
    put(bytes, 28, 4, end as u64);
    put(bytes, places.start - 4, 4, end as u64);
}

fn in_block(bytes: &mut [u8], places: &Places, random: &mut Random, fault: fn(&mut [u8], usize, &mut Random)) {
    let blocks: Vec<usize> = places.blocks.iter().flatten().copied().collect();
    if !blocks.is_empty() {
        let at = random.pick(&blocks);
        fault(bytes, at, random);
    }
}

fn bits(bytes: &mut [u8], at: usize, random: &mut Random) {
    let old = match bytes.get(at + 8..at + 10) {
        Some(word) => i64::from(i16::from_le_bytes([word[0], word[1]])),
        None => return,
    };
    let new = random.pick(&[33, -33, 34, 32767, -32768, 0, 0, 1, 1, -1, 32, -32, old - 1, old + 1, -old]);
    put(bytes, at + 8, 2, new as u64);
}

fn flags(bytes: &mut [u8], at: usize, random: &mut Random) {
    put(bytes, at + 10, 2, random.pick(&[0, 1, 2, 3, 4, 5, 0x0100, 0x8000, 0xFFFC, 0xFFFD]));
}

/// Of a group's first block.
fn mid_bit(bytes: &mut [u8], places: &Places, random: &mut Random) {
    if !places.blocks.is_empty() {
        let group = &places.blocks[random.below(places.blocks.len())];
        toggle(bytes, group[0] + 10, 1);
    }
}

fn cut(bytes: &mut Vec<u8>, places: &Places, random: &mut Random) {
    let end = places.start + places.size;
    let lengths =
        [0, 1, 7, 8, 119, 119, 120, 121, places.table + 3, places.start - 1, places.start, end.saturating_sub(1), end];
    bytes.truncate(random.pick(&lengths));
}
