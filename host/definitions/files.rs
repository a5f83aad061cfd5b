//! Files laid out by hand: any channels, depth, width and flags, gaps before the table, bytes after the data.
use crate::random::Random;

pub struct Block {
    pub base: i32,
    pub bits: i16,
    pub flags: u16,
    pub padding: u32,
    pub run: Vec<u8>,
}

pub struct File {
    /// Byte 4 of the signature.
    pub mark: u8,
    pub channels: u16,
    pub depth: u16,
    pub rate: u32,
    pub frames: u32,
    pub unknown: Vec<u8>,
    pub gap: Vec<u8>,
    pub groups: Vec<Vec<Block>>,
    pub tail: Vec<u8>,
}

/// Where the parts of a file are, so that faults find them.
pub struct Places {
    pub table: usize,
    pub start: usize,
    pub size: usize,
    pub frames: u32,
    pub channels: usize,
    /// The first byte of each block, group by group.
    pub blocks: Vec<Vec<usize>>,
}

impl Block {
    pub fn length(&self) -> usize {
        16 + self.run.len()
    }

    fn write(&self, out: &mut Vec<u8>) {
        out.extend([0x16, 0x0C, 0x9A, 0x3E]);
        out.extend(self.base.to_le_bytes());
        out.extend(self.bits.to_le_bytes());
        out.extend(self.flags.to_le_bytes());
        out.extend(self.padding.to_le_bytes());
        out.extend(&self.run);
    }
}

impl File {
    /// A file without groups; what document 01 leaves open is random here, or zeros.
    pub fn new(channels: u16, depth: u16, rate: u32, frames: u32, random: &mut Random) -> Self {
        let plain = random.once_in(2);
        let (gap, tail) = (random.pick(&[0, 0, 0, 1, 3, 8]), random.pick(&[0, 0, 1, 9, 100]));
        File {
            mark: random.pick(&[0x31, 0x31, 0x30]),
            channels,
            depth,
            rate,
            frames,
            unknown: if plain { vec![0; 88] } else { random.bytes(88) },
            gap: random.bytes(gap),
            groups: Vec::new(),
            tail: random.bytes(tail),
        }
    }

    pub fn places(&self) -> Places {
        let table = 120 + self.gap.len();
        let start = table + 4 * (self.groups.len() + 1);
        let mut at = start;
        let mut step = |block: &Block| {
            at += block.length();
            at - block.length()
        };
        let blocks = self.groups.iter().map(|group| group.iter().map(&mut step).collect()).collect();
        Places { table, start, size: at - start, frames: self.frames, channels: self.channels.into(), blocks }
    }

    pub fn bytes(&self) -> Vec<u8> {
        let places = self.places();
        let mut out = self.header(&places);
        out.extend(&self.unknown);
        out.extend(&self.gap);
        for group in &places.blocks {
            out.extend(((group[0] - places.start) as u32).to_le_bytes());
        }
        out.extend((places.size as u32).to_le_bytes());
        self.groups.iter().flatten().for_each(|block| block.write(&mut out));
        out.extend(&self.tail);
        out
    }

    fn header(&self, places: &Places) -> Vec<u8> {
        let mut out = vec![0x01, 0xA8, 0x9E, 0xD6, self.mark, 0x01, 0x00, 0x00];
        out.extend(self.channels.to_le_bytes());
        out.extend(self.depth.to_le_bytes());
        for number in [self.rate, self.frames, places.table as u32, places.start as u32, places.size as u32] {
            out.extend(number.to_le_bytes());
        }
        out
    }
}

/// 512 values, `width` bits each, least significant bit first.
pub fn packed(values: &[i32], width: u32) -> Vec<u8> {
    let mut out = vec![0; 64 * width as usize];
    for (k, value) in values.iter().enumerate() {
        for bit in (0..width as usize).filter(|bit| value >> bit & 1 == 1) {
            let at = k * width as usize + bit;
            out[at / 8] |= 1 << (at % 8);
        }
    }
    out
}

/// A block without flags that holds the values, of which there are any, and after them others of its own: zeros if it is `quiet`.
pub fn holding(values: &[i32], bits: i16, quiet: bool, random: &mut Random) -> Block {
    let width = bits.unsigned_abs().into();
    let mut list = if bits > 0 { steps(values) } else { values.to_vec() };
    list.resize_with(512, || if quiet { 0 } else { random.signed(width) });
    let base = if bits > 0 { values[0] } else { random.signed(32) };
    Block { base, bits, flags: 0, padding: random.next() as u32, run: packed(&list, width) }
}

/// From each value to the next.
pub fn steps(values: &[i32]) -> Vec<i32> {
    values.windows(2).map(|pair| pair[1].wrapping_sub(pair[0])).collect()
}

/// The least width that holds all the values.
pub fn width_of(values: &[i32]) -> u32 {
    let widest = |v: &i32| 33 - (if *v < 0 { !*v } else { *v }).leading_zeros();
    values.iter().map(widest).max().unwrap_or(1)
}

/// The bits words of a file that can be read.
pub fn bits_words(file: &[u8]) -> Vec<i16> {
    let number = |at: usize| u32::from_le_bytes(file[at..at + 4].try_into().unwrap()) as usize;
    let depth = usize::from(file[10]);
    let (mut at, end) = (number(24), number(24) + number(28));
    let mut words = Vec::new();
    while at < end {
        let bits = i16::from_le_bytes([file[at + 8], file[at + 9]]);
        let width = if bits == 0 { depth } else { bits.unsigned_abs().into() };
        words.push(bits);
        at += 16 + 64 * width;
    }
    words
}
