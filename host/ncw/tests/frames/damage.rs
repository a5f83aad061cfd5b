//! Files with damage: what is refused, and what no longer is.
use crate::files::{Block, File};
use crate::{four, read, reader};

/// What is wrong with a block, and what it is refused by.
type Damage = (fn(&mut Block), u32, i16);

const DAMAGES: [Damage; 5] = [
    (|block| block.flags ^= 2, 20, 0),
    (|block| block.bits = 99, 4, 99),
    (|block| block.bits = i16::MIN, 4, i16::MIN),
    (|block| block.bits = 32, 1, 0),
    (|block| block.run.push(0), 22, 0),
];

/// The file with one block damaged.
fn with(channels: u16, group: usize, channel: usize, damage: fn(&mut Block)) -> File {
    let mut file = four(channels, 0);
    damage(&mut file.groups[group][channel]);
    file
}

/// The last channel of the group in the middle.
#[test]
fn a_group_that_is_not_touched() {
    for (channels, (damage, number, bits)) in [1, 2, 3].into_iter().flat_map(|n| DAMAGES.map(|damage| (n, damage))) {
        let (whole, bad) = (four(channels, 0).bytes(), with(channels, 1, channels as usize - 1, damage).bytes());
        assert!(reader(&bad).decode_samples().is_err());
        for (first, count) in [(0, 512), (511, 1), (1_024, 576), (1_024, 1), (1_599, 1)] {
            assert_eq!(read(&bad, first, count), read(&whole, first, count), "{first}, {count}");
            assert!(read(&bad, first, count).is_ok());
        }
        for first in [0, 511, 512, 513, 1_023, 1_024, 1_600] {
            assert_eq!(read(&bad, first, 0), Ok(vec![]), "{first}");
        }
        for (first, count) in [(511, 2), (512, 1), (1_023, 1), (1_023, 2), (600, 3), (0, 1_600)] {
            assert_eq!(read(&bad, first, count), Err((number, bits)), "{first}, {count}");
        }
        assert_eq!(read(&bad, 512, 1_089), Err((51, 0)), "51 comes before");
    }
}

/// The first group's signature is opening's, and its float bit gives the format. Nothing else of it counts.
#[test]
fn the_first_group_is_not_touched() {
    let (whole, places) = (four(2, 0).bytes(), four(2, 0).places());
    let (first, second) = (places.blocks[0][0], places.blocks[1][0]);
    let frames = read(&whole, 512, 512);
    for at in (first + 4..second).filter(|at| *at != first + 10) {
        let mut bad = whole.clone();
        bad[at] ^= 0xFF;
        assert_eq!(read(&bad, 512, 512), frames, "byte {at}");
    }
    for (at, number) in [(first, 3), (first + 3, 3), (first + 10, 20)] {
        let mut bad = whole.clone();
        bad[at] ^= 2;
        assert_eq!(read(&bad, 1_500, 1), Err((number, 0)), "byte {at}");
    }
}

/// The group that is told is the first that is touched, and not the file's first that is damaged.
#[test]
fn two_bits_words() {
    let mut file = four(2, 0);
    (file.groups[0][1].bits, file.groups[1][0].bits, file.groups[3][1].bits) = (40, -50, 60);
    let bytes = file.bytes();
    let bits = |first, count| read(&bytes, first, count).unwrap_err();
    assert_eq!([bits(0, 1), bits(0, 1_600)], [(4, 40); 2]);
    assert_eq!([bits(512, 1), bits(1_000, 600)], [(4, -50); 2]);
    assert_eq!([bits(1_536, 64), bits(1_535, 2), bits(1_599, 1)], [(4, 60); 3]);
    assert!(read(&bytes, 1_024, 512).is_ok());
}

/// A damaged mid bit in a mono group, which the whole decode refuses, moves nothing in the others.
#[test]
fn a_mid_bit_elsewhere() {
    let (whole, bad) = (four(1, 0).bytes(), with(1, 0, 0, |block| block.flags |= 1).bytes());
    assert_eq!(read(&bad, 0, 1), Err((21, 0)));
    assert_eq!(read(&bad, 512, 1_088), read(&whole, 512, 1_088));
}
