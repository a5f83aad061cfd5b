//! What encoding writes, by documents 01 and 02 alone: every number in 64 bits, every value bit by bit, plain and slow. Nothing here is the Rust
//! original's.
use crate::located::{self, Refused};

/// The modes of the host boundary. Those that are unknown are taken as Auto: 38 comes before, and is not here.
const DIRECT: u32 = 1;
const MID_SIDE: u32 = 2;

/// The file, or what is refused: 30 to 35, and 37. Without 38, 39 and 50.
pub fn encoding(samples: &[i32], channels: u16, depth: u16, rate: u32, mode: u32) -> Result<Vec<u8>, Refused> {
    located::encoding(samples, channels, depth, rate, mode).map_or(Ok(()), Err)?;
    let samples: Vec<i64> = samples.iter().map(|sample| i64::from(*sample)).collect();
    let count = u64::from(channels);
    let groups: Vec<Vec<u8>> =
        samples.chunks(512 * usize::from(channels)).map(|group| group_of(group, count as usize, depth, mode)).collect();
    let frames = samples.len() as u64 / count;
    file(&[(count, 2), (depth.into(), 2), (rate.into(), 4), (frames, 4)], &groups)
}

// ---- the file

/// A number in so many bytes, the lowest first.
fn bytes(number: u64, count: usize) -> Vec<u8> {
    (0..count).map(|k| (number >> (8 * k)) as u8).collect()
}

/// The settings and the frames, each in so many bytes, stand behind the signature.
fn file(settings: &[(u64, usize)], groups: &[Vec<u8>]) -> Result<Vec<u8>, Refused> {
    let mut entries = vec![0];
    for group in groups {
        entries.push(entries[entries.len() - 1] + group.len() as u64);
    }
    let size = entries[groups.len()];
    if size > 4_294_967_295 {
        return Err(Refused { number: 37, told: 0, group: 0, channel: 0 });
    }
    let places = [120, 120 + 4 * entries.len() as u64, size];
    let mut file = vec![0x01, 0xA8, 0x9E, 0xD6, 0x31, 0x01, 0x00, 0x00];
    file.extend(settings.iter().flat_map(|(number, count)| bytes(*number, *count)));
    file.extend(places.iter().flat_map(|number| bytes(*number, 4)));
    file.extend([0; 88]);
    file.extend(entries.iter().flat_map(|entry| bytes(*entry, 4)));
    file.extend(groups.concat());
    Ok(file)
}

// ---- a group

/// Mid/side only where there are two channels and every frame has equal parity; in Auto only where it is smaller.
fn group_of(samples: &[i64], channels: usize, depth: u16, mode: u32) -> Vec<u8> {
    let each: Vec<Vec<i64>> = (0..channels).map(|channel| padded(samples, channels, channel)).collect();
    let direct = blocks(&each, depth, 0);
    if mode == DIRECT || channels != 2 || each[0].iter().zip(&each[1]).any(|(l, r)| (l + r) % 2 != 0) {
        return direct;
    }
    let halves = |half: fn(i64, i64) -> i64| each[0].iter().zip(&each[1]).map(|(l, r)| half(*l, *r) / 2).collect();
    let both = blocks(&[halves(|l, r| l + r), halves(|l, r| l - r)], depth, 1);
    if mode == MID_SIDE || both.len() < direct.len() {
        both
    } else {
        direct
    }
}

/// A channel, and its last sample until there are 512.
fn padded(samples: &[i64], channels: usize, channel: usize) -> Vec<i64> {
    let mut one: Vec<i64> = samples.chunks(channels).map(|frame| frame[channel]).collect();
    one.resize(512, one[one.len() - 1]);
    one
}

// ---- a block

fn blocks(channels: &[Vec<i64>], depth: u16, flags: i64) -> Vec<u8> {
    channels.iter().flat_map(|channel| block(channel, depth, flags)).collect()
}

fn block(samples: &[i64], depth: u16, flags: i64) -> Vec<u8> {
    let mut differences: Vec<i64> = samples.windows(2).map(|two| wrapped(two[1] - two[0])).collect();
    differences.push(0);
    let width = (2..=32)
        .find(|width| differences.iter().all(|one| holds(*width, *one)))
        .expect("32 bits hold a wrapped number");
    let (values, bits, width) = match width < depth {
        true => (&differences[..], i64::from(width), width),
        false => (samples, -i64::from(depth), depth),
    };
    let header = [(samples[0], 4), (bits, 2), (flags, 2), (0, 4)];
    let mut block = vec![0x16, 0x0C, 0x9A, 0x3E];
    block.extend(header.iter().flat_map(|(number, count)| bytes(*number as u64, *count)));
    block.extend(packed(values, width));
    block
}

/// The number of 32 bits that is a whole number of times 2^32 away.
fn wrapped(number: i64) -> i64 {
    match number {
        _ if number >= 1 << 31 => number - (1 << 32),
        _ if number < -(1 << 31) => number + (1 << 32),
        _ => number,
    }
}

fn holds(width: u16, number: i64) -> bool {
    -(1 << (width - 1)) <= number && number < 1 << (width - 1)
}

/// The bits of the values one after another, the lowest first, in a value as in a byte.
fn packed(values: &[i64], width: u16) -> Vec<u8> {
    let bits: Vec<u8> = values.iter().flat_map(|value| (0..width).map(move |k| (value >> k & 1) as u8)).collect();
    bits.chunks(8).map(|eight| eight.iter().rev().fold(0, |byte, bit| 2 * byte + bit)).collect()
}

#[cfg(test)]
mod tests {
    use super::*;

    const RATE: u32 = 44_100;
    const LOW: i32 = i32::MIN;
    const HIGH: i32 = i32::MAX;

    fn length(samples: &[i32], channels: u16, depth: u16, mode: u32) -> usize {
        encoding(samples, channels, depth, RATE, mode).expect("accepted").len()
    }

    fn number(samples: &[i32], channels: u16, depth: u16, mode: u32) -> u32 {
        encoding(samples, channels, depth, RATE, mode).expect_err("refused").number
    }

    /// The bases of the blocks of one group of two.
    fn bases(samples: &[i32], depth: u16) -> [i32; 2] {
        let file = encoding(samples, 2, depth, RATE, MID_SIDE).expect("accepted");
        let half = (file.len() - 128) / 2;
        [132, 132 + half].map(|at| i32::from_le_bytes([file[at], file[at + 1], file[at + 2], file[at + 3]]))
    }

    #[test]
    fn document_01() {
        let five = encoding(&[5], 1, 16, RATE, 0).expect("accepted");
        assert_eq!(
            (five.len(), &five[128..144]),
            (272, &[0x16, 0x0C, 0x9A, 0x3E, 5, 0, 0, 0, 2, 0, 0, 0, 0, 0, 0, 0][..])
        );
        assert_eq!([length(&[0, 16_383], 1, 16, 0), length(&[0, 16_384], 1, 16, 0)], [128 + 976, 128 + 1040]);
        assert_eq!([length(&[5, 5], 2, 16, 0), length(&[], 2, 16, 0), length(&[0; 513], 1, 16, 0)], [416, 124, 420]);
        assert_eq!((bases(&[3, 5], 16), bases(&[-32_768, 32_766], 16)), ([4, -1], [-1, -32_767]));
        assert_eq!(packed(&[1, -1, 0, -2], 2), [0x8D]);
        assert_eq!(packed(&[0, 1, 2, 3, -4, -3, -2, -1], 3), [0x88, 0xC6, 0xFA]);
    }

    #[test]
    fn document_02() {
        assert_eq!(length(&[HIGH, LOW], 1, 32, 0), 272);
        assert_eq!(
            [length(&[0, (1 << 30) - 1], 1, 32, 0), length(&[0, 1 << 30], 1, 32, 0)],
            [128 + 16 + 64 * 31, 128 + 2064]
        );
        assert_eq!([length(&[0, 63], 1, 8, 0), length(&[0, 64], 1, 8, 0)], [128 + 464, 128 + 528]);
        assert_eq!((bases(&[HIGH, LOW + 1], 32), bases(&[LOW, HIGH - 1], 32)), ([0, HIGH], [-1, LOW + 1]));
        assert_eq!(encoding(&[9, 9, 9, -9, -9, 9], 3, 16, RATE, 0).expect("accepted")[138], 0);
        assert_eq!([number(&[0; 9], 9, 16, 0), number(&[0; 3], 3, 16, 2), number(&[0; 4], 3, 16, 2)], [30, 34, 31]);
        assert_eq!([number(&[128], 1, 8, 0), number(&[-129], 1, 8, 0), number(&[1, 2], 2, 32, 2)], [32, 32, 35]);
    }
}
