//! Decoding.
use crate::blocks::{file, flagged, raw};
use crate::decoding;
use crate::faults::put;
use crate::files::{Block, File};
use crate::{of_length, MARK};
use ncw::{boundary, NcwReader};
use std::io::Cursor;

/// Four groups of raw blocks of 4 bits, 80 + 192 bytes each.
fn four(channels: u16) -> File {
    let group = || (0..channels).map(|_| raw(4, &[])).collect();
    file(channels, 16, 1_600, (0..4).map(|_| group()).collect())
}

type Change = fn(Block) -> Block;

/// The file of four groups with one block changed.
fn with(channels: u16, group: usize, channel: usize, change: Change) -> File {
    let mut file = four(channels);
    let block = file.groups[group].remove(channel);
    file.groups[group].insert(channel, change(block));
    file
}

#[test]
fn what_is_accepted_has_no_place() {
    let file = four(3).bytes();
    assert_eq!((decoding(&file), boundary::decode_refusal(&file, 4 * 4_800)), (None, 0));
    assert!(NcwReader::read(Cursor::new(&file)).unwrap().decode_refusal().is_none());
}

#[test]
fn what_concerns_no_group() {
    let bytes = four(3).bytes();
    for length in [0, 119, 120, bytes.len() - 1] {
        assert_eq!(decoding(&bytes[..length]), Some((1, 0, 0, 0)), "{length} bytes");
    }
    #[rustfmt::skip]
    let faults = [
        (0, 1, 0, 2), (8, 2, 0, 10), (10, 2, 17, 11), (12, 4, 0, 12), (20, 4, 119, 13), (24, 4, 119, 14), (24, 4, 144, 15),
        (28, 4, 0, 16), (120, 4, 1, 18),
    ];
    for (at, length, value, number) in faults {
        let mut bytes = bytes.clone();
        put(&mut bytes, at, length, value);
        assert_eq!(decoding(&bytes), Some((number, 0, 0, 0)));
    }
    let mut empty = File { tail: vec![0; 9], ..file(1, 16, 0, Vec::new()) }.bytes();
    put(&mut empty, 28, 4, 9);
    put(&mut empty, 120, 4, 9);
    assert_eq!(decoding(&empty), Some((17, 0, 0, 0)));
}

/// Room is counted in bytes, and 50 is the last of all.
#[test]
fn too_little_room() {
    let bytes = four(3).bytes();
    for (room, word) in [(0, 50), (4 * 4_800 - 1, 50), (4 * 4_800, 0), (4 * 4_800 + 3, 0), (u64::MAX, 0)] {
        assert_eq!(boundary::decode_refusal(&bytes, room), word, "{room} bytes");
    }
    let bad = with(3, 3, 2, |block| flagged(2, block)).bytes();
    assert_eq!(boundary::decode_refusal(&bad, 0), 20 + (2 << 24) + (3 << 40));
}

/// The first block's signature is opening's, which names the group and the channel 0.
#[test]
fn the_first_block() {
    let mut bytes = four(3).bytes();
    bytes[140 + MARK] ^= 1;
    assert_eq!(decoding(&bytes), Some((3, 0, 0, 0)));
    assert_eq!(ncw::open(&bytes).unwrap_err().number(), Some(3));
}

#[test]
fn the_first_group_of_bad_entries() {
    let ending = |ends: &[(usize, u64)]| {
        let mut bytes = four(2).bytes();
        ends.iter().for_each(|(group, end)| put(&mut bytes, 120 + 4 * (group + 1), 4, *end));
        decoding(&bytes)
    };
    assert_eq!(ending(&[(0, 159)]), Some((19, 0, 0, 0)), "under 80 bytes a channel");
    assert_eq!(ending(&[(1, 544 + 159)]), Some((19, 0, 1, 0)));
    assert_eq!(ending(&[(1, 544 + 159), (2, 1_088 + 159)]), Some((19, 0, 1, 0)), "two of them");
    assert_eq!(ending(&[(2, 0)]), Some((19, 0, 2, 0)), "an end before its start");
    assert_eq!(ending(&[(2, 4 * 544 - 159)]), Some((19, 0, 3, 0)), "the last");
    assert_eq!(ending(&[(2, 9_999)]), Some((19, 0, 2, 0)), "past the data");
}

/// What a block is refused by, and what is told with it.
const OF_BLOCKS: [(u32, i16, Change); 4] = [
    (20, 0, |block| flagged(2, block)),
    (4, 33, |block| Block { bits: 33, ..block }),
    (4, i16::MIN, |block| Block { bits: i16::MIN, ..block }),
    (4, -33, |block| Block { bits: -33, ..block }),
];

#[test]
fn blocks_by_group_and_channel() {
    for (group, channel) in (0..4).flat_map(|group| (0..3).map(move |channel| (group, channel))) {
        let place = (group as u32, channel as u16);
        for (number, bits, change) in OF_BLOCKS {
            let bytes = with(3, group, channel, change).bytes();
            let expected = match (group, channel, number) {
                (0, 0, 20) => (20, 0, 0, 1),
                _ => (number, bits as u16, place.0, place.1),
            };
            assert_eq!(decoding(&bytes), Some(expected));
        }
        let mut bytes = four(3).bytes();
        bytes[four(3).places().blocks[group][channel] + MARK] ^= 1;
        assert_eq!(decoding(&bytes), Some((3, 0, place.0, place.1)));
    }
}

/// A header or values that the group has no bytes for: the block is named in which they are missing.
#[test]
fn groups_that_end_too_soon() {
    for length in [16, 79, 271] {
        let mut file = four(3);
        file.groups[2][2] = of_length(length, raw(4, &[]));
        assert_eq!(decoding(&file.bytes()), Some((1, 0, 2, 2)), "{length} bytes of the last block");
    }
    for (bits, channel) in [(-6, 2), (-7, 1), (-32, 1)] {
        let mut file = four(3);
        file.groups[3][1].bits = bits;
        file.groups[3][2] = of_length(128, raw(4, &[]));
        assert_eq!(decoding(&file.bytes()), Some((1, 0, 3, channel)), "{bits} for the second of 400 bytes");
    }
}

#[test]
fn mid_side_without_two_channels() {
    for (channels, group) in [(1, 0), (1, 3), (3, 0), (3, 2)] {
        let bytes = with(channels, group, 0, |block| flagged(1, block)).bytes();
        assert_eq!(decoding(&bytes), Some((21, 0, group as u32, 0)), "{channels} channels");
    }
}

/// 22 names no channel, however many there are.
#[test]
fn bytes_left_in_a_group() {
    for (channels, group) in [(1, 3), (2, 0), (2, 2), (3, 1)] {
        let bytes = with(channels, group, usize::from(channels) - 1, |block| of_length(273, block)).bytes();
        assert_eq!(decoding(&bytes), Some((22, 0, group as u32, 0)), "{channels} channels");
    }
}

#[test]
fn the_first_of_two() {
    let two = |(g, c): (usize, usize), (h, d): (usize, usize)| {
        let mut file = four(3);
        (file.groups[g][c].bits, file.groups[h][d].bits) = (40, 50);
        decoding(&file.bytes())
    };
    assert_eq!(two((1, 2), (2, 0)), Some((4, 40, 1, 2)));
    assert_eq!(two((2, 1), (2, 2)), Some((4, 40, 2, 1)));
    let mut left = with(3, 1, 2, |block| of_length(273, block));
    left.groups[2][0].bits = 40;
    assert_eq!(decoding(&left.bytes()), Some((22, 0, 1, 0)), "bytes left before the next group");
    let refused = ncw::decode_refusal(&left.bytes(), usize::MAX).unwrap();
    assert_eq!(refused.to_string(), "bytes left in a group (group 1)");
}

/// By the reader, which holds the bytes, and in words.
#[test]
fn by_the_reader() {
    let bytes = with(2, 3, 1, |block| Block { bits: 33, ..block }).bytes();
    let mut reader = NcwReader::read(Cursor::new(&bytes)).unwrap();
    assert_eq!(reader.decode_samples().unwrap_err().number(), Some(4));
    let refused = reader.decode_refusal().unwrap();
    assert_eq!(refused.to_string(), "bits word beyond 32 either way: 33 (group 3, channel 1)");
    assert_eq!((refused.group, refused.channel, refused.place), (3, 1, 0));
}
