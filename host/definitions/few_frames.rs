//! A few frames of a file, by documents 01 and 02 alone: each frame from its own group, each value bit by bit. Nothing here is the Rust original's.
//! Any bytes may be asked about.
#[path = "nans.rs"]
mod nans;

use crate::located::{self, number, Refused};
use nans::settled;
use std::ops::Range;

/// What is read with room for so many samples: `count` frames from the frame `first` on, or what is refused.
pub fn read_frames(file: &[u8], first: u32, count: u32, room: u64) -> Result<Vec<i32>, Refused> {
    located::opening(file).map_or(Ok(()), Err)?;
    let asked = asked(first, count);
    refuse(51, asked.end > frames(file))?;
    groups(&asked).try_for_each(|group| located::step(file, group as u32).map_or(Ok(()), Err))?;
    refuse(50, room < u64::from(count) * channels(file))?;
    Ok(groups(&asked).flat_map(|group| frames_of(file, group, &asked)).collect())
}

/// The bytes that answer and samples may depend on, apart from the file's length, as far as they are there.
pub fn view(file: &[u8], first: u32, count: u32) -> Vec<Range<usize>> {
    let mut view = vec![0..32];
    if file.len() >= 32 {
        let (table, data, entries) = (number(file, 20, 4), number(file, 24, 4), frames(file).div_ceil(512) + 1);
        view.push(bytes(table, 4 * entries));
        if entries > 1 {
            view.extend([bytes(data, 4), bytes(data + 10, 2)]);
        }
    }
    let asked = asked(first, count);
    if located::opening(file).is_none() && asked.end <= frames(file) {
        view.extend(groups(&asked).map(|group| place(file, group)));
    }
    view.into_iter().map(|part| part.start.min(file.len())..part.end.min(file.len())).collect()
}

// ---- what is asked for

/// Numbers of frames. Their end may take more than 32 bits.
fn asked(first: u32, count: u32) -> Range<u64> {
    u64::from(first)..u64::from(first) + u64::from(count)
}

/// The groups that have one of these frames: for no frames none.
fn groups(asked: &Range<u64>) -> Range<u64> {
    match asked.is_empty() {
        true => 0..0,
        false => asked.start / 512..(asked.end - 1) / 512 + 1,
    }
}

fn refuse(number: u32, wrong: bool) -> Result<(), Refused> {
    match wrong {
        true => Err(Refused { number, told: 0, group: 0, channel: 0 }),
        false => Ok(()),
    }
}

// ---- the file

fn channels(file: &[u8]) -> u64 {
    number(file, 8, 2)
}

fn frames(file: &[u8]) -> u64 {
    number(file, 16, 4)
}

fn bytes(from: u64, length: u64) -> Range<usize> {
    from as usize..(from + length) as usize
}

/// Where a group of a file that opens is.
fn place(file: &[u8], group: u64) -> Range<usize> {
    let (table, data) = (number(file, 20, 4), number(file, 24, 4));
    let [from, to] = [group, group + 1].map(|k| number(file, table + 4 * k, 4));
    bytes(data + from, to - from)
}

/// Bit 1 of the flags of the file's first block.
fn is_float(file: &[u8]) -> bool {
    number(file, number(file, 24, 4) + 10, 2) & 2 != 0
}

// ---- samples

/// Those of the frames that are asked for which lie in this group, frame by frame.
fn frames_of(file: &[u8], group: u64, asked: &Range<u64>) -> Vec<i32> {
    let blocks = blocks(file, group);
    let within = (512 * group..512 * (group + 1)).filter(|frame| asked.contains(frame));
    within.flat_map(|frame| blocks.iter().map(move |samples| samples[frame as usize % 512])).collect()
}

/// The 512 samples of each channel in a group that is not refused.
fn blocks(file: &[u8], group: u64) -> Vec<Vec<i32>> {
    let group = &file[place(file, group)];
    let mut at = 0;
    let mut block = |_| {
        let bits = number(group, at + 8, 2) as u16 as i16;
        let width = if bits == 0 { number(file, 10, 2) } else { bits.unsigned_abs().into() };
        let (base, values) = (number(group, at + 4, 4) as i32, values(&group[at as usize + 16..], width as usize));
        at += 16 + 64 * width;
        if bits > 0 {
            summed(base, &values)
        } else {
            values
        }
    };
    let blocks = (0..channels(file)).map(&mut block).collect();
    match number(group, 10, 2) & 1 == 1 {
        true => left_and_right(blocks, is_float(file)),
        false => blocks,
    }
}

/// 512 values of so many bits, the lowest bit first.
fn values(packed: &[u8], width: usize) -> Vec<i32> {
    let bit = |at: usize| i64::from(packed[at / 8] >> (at % 8) & 1);
    let code = |k: usize| (0..width).map(|i| bit(k * width + i) << i).sum::<i64>();
    let signed = |code: i64| if code < 1 << (width - 1) { code } else { code - (1 << width) };
    (0..512).map(|k| signed(code(k)) as i32).collect()
}

/// Sample 0 is the base, sample k + 1 is sample k plus difference k; the last difference is unused.
fn summed(base: i32, differences: &[i32]) -> Vec<i32> {
    let mut samples = vec![base];
    differences[..511].iter().for_each(|difference| samples.push(samples[samples.len() - 1].wrapping_add(*difference)));
    samples
}

fn left_and_right(blocks: Vec<Vec<i32>>, float: bool) -> Vec<Vec<i32>> {
    let pairs = || blocks[0].iter().zip(&blocks[1]).map(|(mid, side)| (*mid, *side));
    let number = |bits: i32| f32::from_bits(bits as u32);
    match float {
        false => vec![
            pairs().map(|(mid, side)| mid.wrapping_add(side)).collect(),
            pairs().map(|(mid, side)| mid.wrapping_sub(side)).collect(),
        ],
        true => vec![
            pairs().map(|(mid, side)| settled(mid, side, number(mid) + number(side))).collect(),
            pairs().map(|(mid, side)| settled(mid, side, number(mid) - number(side))).collect(),
        ],
    }
}

#[cfg(test)]
mod tests {
    use super::*;

    /// Raw values of 8 bits, or differences of 2.
    fn block(bits: i16, flags: u16, base: i32, value: u8) -> Vec<u8> {
        let mut block = vec![0x16, 0x0C, 0x9A, 0x3E];
        block.extend(base.to_le_bytes());
        block.extend([bits as u16, flags, 0, 0].map(u16::to_le_bytes).concat());
        block.resize(16 + 64 * usize::from(bits.unsigned_abs()), value);
        block
    }

    /// A file of 16 bits with these groups.
    fn file(channels: u16, frames: u32, groups: &[Vec<u8>]) -> Vec<u8> {
        let mut file = vec![0x01, 0xA8, 0x9E, 0xD6, 0x31, 0x01, 0x00, 0x00];
        file.extend([channels, 16].map(u16::to_le_bytes).concat());
        let size = groups.iter().map(Vec::len).sum::<usize>() as u32;
        file.extend([44_100, frames, 120, 124 + 4 * groups.len() as u32, size].map(u32::to_le_bytes).concat());
        file.resize(120, 0);
        let ends = groups.iter().scan(0, |end, group| {
            *end += group.len() as u32;
            Some(*end)
        });
        file.extend([0].into_iter().chain(ends).flat_map(u32::to_le_bytes));
        file.extend(groups.concat());
        file
    }

    /// Mono: 1, 2, 3, and so on to 512; 512 times −3; 1, 0, −1, and so on.
    fn three() -> Vec<u8> {
        file(1, 1_500, &[block(2, 0, 1, 0x55), block(-8, 0, 9, 0xFD), block(2, 0, 1, 0xFF)])
    }

    fn at(number: u32, told: u16, group: u32, channel: u16) -> Result<Vec<i32>, Refused> {
        Err(Refused { number, told, group, channel })
    }

    #[test]
    fn frames_of_any_group() {
        let read = |first, count| read_frames(&three(), first, count, count.into()).unwrap();
        assert_eq!(read(0, 3), [1, 2, 3]);
        assert_eq!(read(510, 4), [511, 512, -3, -3]);
        assert_eq!(read(1_023, 4), [-3, 1, 0, -1]);
        assert_eq!(read(1_499, 1), [1 - 475]);
        assert_eq!(read(0, 1_500).len(), 1_500);
        assert_eq!([read(0, 0), read(700, 0), read(1_500, 0)], [[]; 3]);
    }

    #[test]
    fn past_the_end() {
        let whole = three();
        for (first, count) in [(1_500, 1), (1_501, 0), (0, 1_501), (1, u32::MAX), (u32::MAX, u32::MAX), (u32::MAX, 0)] {
            assert_eq!(read_frames(&whole, first, count, 0), at(51, 0, 0, 0), "{first}, {count}");
        }
        assert_eq!(read_frames(&whole[..119], 9_999, 0, 0), at(1, 0, 0, 0));
        let empty = file(2, 0, &[]);
        assert_eq!(read_frames(&empty, 0, 0, 0), Ok(vec![]));
        assert_eq!([read_frames(&empty, 0, 1, 9), read_frames(&empty, 1, 0, 9)], [(); 2].map(|_| at(51, 0, 0, 0)));
    }

    /// Damage in the group in the middle.
    #[test]
    fn touched_groups_alone() {
        let mut whole = three();
        whole[136 + 144 + 8] = 99;
        let read = |first, count| read_frames(&whole, first, count, 0);
        assert_eq!([read(512, 0), read(600, 0), read(1_024, 0)], [(); 3].map(|_| Ok(vec![])));
        assert_eq!([read(0, 512), read(1_024, 476)], [(); 2].map(|_| at(50, 0, 0, 0)));
        for (first, count) in [(511, 2), (0, 513), (512, 1), (1_023, 1), (1_023, 2)] {
            assert_eq!(read(first, count), at(4, 0xFF63, 1, 0), "{first}, {count}");
        }
    }

    #[test]
    fn both_kinds_of_mid_and_side() {
        let stereo = |flags: u16, mid: u8, side: u8| {
            let group = [block(-32, flags, 0, mid), block(-32, flags & 2, 0, side)].concat();
            read_frames(&file(2, 1, &[group]), 0, 1, 2).unwrap()
        };
        assert_eq!(stereo(1, 0x40, 0x41), [0x8181_8181_u32 as i32, -0x0101_0101]);
        assert_eq!(stereo(0, 0x40, 0x41), [0x4040_4040, 0x4141_4141]);
        let [mid, side] = [0x4040_4040, 0x4141_4141].map(f32::from_bits);
        assert_eq!(stereo(3, 0x40, 0x41), [mid + side, mid - side].map(|sum| sum.to_bits() as i32));
        assert_eq!(stereo(3, 0xFF, 0x40), [-1; 2]);
        assert_eq!(stereo(3, 0x40, 0xFF), [-1; 2]);
    }

    #[test]
    fn what_is_looked_at() {
        let whole = three();
        assert_eq!(view(&whole, 512, 512), [0..32, 120..136, 136..140, 146..148, 280..808]);
        assert_eq!(view(&whole, 700, 0), [0..32, 120..136, 136..140, 146..148]);
        assert_eq!(view(&whole, 1, u32::MAX), view(&whole, 0, 0));
        assert_eq!(view(&file(1, 0, &[]), 0, 0), [0..32, 120..124]);
        assert_eq!(view(&whole[..9], 0, 9), [0..9]);
    }
}
