//! Document 01's cases of reading.
use crate::blocks::{at_depth, differences, file, filled, flagged, noisy, raw};
use crate::files::Block;
use crate::random::Random;
use crate::{decoded, read};
use ncw::{NcwHeader, SampleFormat, SAMPLES_PER_BLOCK};

/// Stereo, 16 bits, 44,100, as document 01 writes it.
fn zero_frames() -> Vec<u8> {
    let mut bytes =
        vec![0x01, 0xA8, 0x9E, 0xD6, 0x31, 0x01, 0x00, 0x00, 0x02, 0x00, 0x10, 0x00, 0x44, 0xAC, 0x00, 0x00];
    bytes.extend([0x00, 0x00, 0x00, 0x00, 0x78, 0x00, 0x00, 0x00, 0x7C, 0x00, 0x00, 0x00, 0x00, 0x00, 0x00, 0x00]);
    bytes.resize(124, 0);
    bytes
}

/// Mono, 16 bits, the sample 5: 272 bytes.
pub fn one_sample() -> Vec<u8> {
    file(1, 16, 1, vec![vec![differences(5, 2, &[])]]).bytes()
}

#[test]
fn a_file_without_frames() {
    let file = zero_frames();
    let mut reader = read(&file).unwrap();
    let header = NcwHeader {
        channels: 2,
        bits_per_sample: 16,
        sample_rate: 44_100,
        num_samples: 0,
        blocks_offset: 120,
        data_offset: 124,
        data_size: 0,
    };
    assert_eq!(reader.header, header);
    assert!(reader.block_offsets.is_empty());
    assert_eq!(reader.sample_format, SampleFormat::Pcm);
    assert!(reader.decode_samples().unwrap().is_empty());
    assert_eq!(ncw::open(&file).unwrap(), 0);
}

#[test]
fn one_sample_is_read() {
    let file = one_sample();
    let mut reader = read(&file).unwrap();
    assert_eq!((file.len(), reader.header.data_offset, reader.header.data_size), (272, 128, 144));
    assert_eq!((reader.header.channels, reader.header.num_samples), (1, 1));
    assert_eq!(reader.block_offsets, [0]);
    assert_eq!(reader.decode_samples().unwrap(), [5]);
    assert_eq!(reader.decode_samples().unwrap(), [5], "a second time");
    assert_eq!(ncw::open(&file).unwrap(), 4);
}

#[test]
fn a_group_begins_after_512_frames() {
    let random = &mut Random::new(1);
    for (frames, offset, groups) in [(512, 128, &[0][..]), (513, 132, &[0, 144])] {
        let file = filled(1, frames, || noisy(2, random)).bytes();
        let mut reader = read(&file).unwrap();
        assert_eq!((reader.header.data_offset, &reader.block_offsets[..]), (offset, groups));
        assert_eq!(reader.decode_samples().unwrap().len(), frames as usize);
    }
    assert_eq!(SAMPLES_PER_BLOCK, 512);
}

#[test]
fn both_signatures_open() {
    let mut file = one_sample();
    file[4] = 0x30;
    assert_eq!(decoded(&file).unwrap(), [5]);
}

#[test]
fn codings_by_the_bits_word() {
    let mono = |depth: u16, block: Block| decoded(&file(1, depth, 4, vec![vec![block]]).bytes()).unwrap();
    assert_eq!(mono(16, differences(7, 1, &[-1, 0, -1])), [7, 6, 6, 5]);
    assert_eq!(mono(16, differences(i32::MAX, 2, &[1, -2, 0])), [i32::MAX, i32::MIN, i32::MAX - 1, i32::MAX - 1]);
    assert_eq!(mono(16, raw(3, &[3, -4, 1, -1])), [3, -4, 1, -1]);
    assert_eq!(mono(16, raw(32, &[i32::MIN, i32::MAX, 0, -1])), [i32::MIN, i32::MAX, 0, -1]);
    assert_eq!(mono(24, at_depth(24, &[0x7F_FFFF, -0x80_0000, 5, -5])), [0x7F_FFFF, -0x80_0000, 5, -5]);
}

#[test]
fn mid_and_side() {
    let pair = |mid: i32, side: i32, flags: u16| {
        let group = vec![flagged(flags, raw(32, &[mid])), flagged(flags & 2, raw(32, &[side]))];
        decoded(&file(2, 32, 1, vec![group]).bytes()).unwrap()
    };
    assert_eq!(pair(4, -1, 1), [3, 5]);
    assert_eq!(pair(4, -1, 0), [4, -1]);
    assert_eq!(pair(i32::MIN, i32::MIN, 1), [0, 0]);
    let bits = |number: f32| number.to_bits() as i32;
    assert_eq!(pair(bits(1.5), bits(0.25), 3), [bits(1.75), bits(1.25)]);
    let infinity = bits(f32::INFINITY);
    assert_eq!(pair(infinity, infinity, 3), [infinity, 0x7FC0_0000]);
    assert_eq!(pair(0x7F80_0001, bits(1.5), 3), [0x7FC0_0001; 2]);
    assert_eq!(pair(bits(1.5), -2, 3), [-2; 2]);
    assert_eq!(pair(0x7F80_0001, -2, 3), [0x7FC0_0001; 2]);
    assert_eq!(pair(0x7F80_0001, -2, 2), [0x7F80_0001, -2]);
}

#[test]
fn the_first_block_says_the_format() {
    let formatted =
        |flags| read(&file(1, 32, 1, vec![vec![flagged(flags, raw(32, &[]))]]).bytes()).unwrap().sample_format;
    assert_eq!(formatted(0), SampleFormat::Pcm);
    assert_eq!(formatted(2), SampleFormat::Float);
    assert_eq!(formatted(0xFFFC), SampleFormat::Pcm);
}
