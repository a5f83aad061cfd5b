//! Summaries that are read: every refusal, in its order.
use crate::peaks::Summary;
use crate::{pair, read};

/// Two groups of two channels; the numbers of the last pair have three bytes and five.
const WHOLE: [u8; 18] = [0x81, 4, 2, 1, 2, 3, 4, 0x80, 1, 0x82, 1, 0x80, 0x80, 1, 0xFE, 0xFF, 0xFF, 0xFF];

fn whole() -> Vec<u8> {
    [&WHOLE[..], &[15]].concat()
}

#[test]
fn every_pair() {
    let pairs = vec![(-1, 1), (-2, 2), (64, 65), (8_192, i32::MAX)];
    assert_eq!(read(&whole()), Ok(Summary { frames: 513, channels: 2, pairs: pairs.clone() }));
    for (k, expected) in pairs.into_iter().enumerate() {
        assert_eq!(pair(&whole(), k as u32 / 2, k as u32 % 2), Ok(expected));
    }
}

/// The channel behind the last would be the next group's first by its number.
#[test]
fn past_the_last() {
    for (group, channel) in [(0, 2), (0, 3), (1, 2), (2, 0), (u32::MAX, 0), (0, u32::MAX), (u32::MAX, u32::MAX)] {
        assert_eq!(pair(&whole(), group, channel), Err(67), "{group}, {channel}");
        assert_eq!(pair(&[&whole()[..], &[0]].concat(), group, channel), Err(63), "63 comes before");
        assert_eq!(pair(&WHOLE, group, channel), Err(60), "60 comes before");
    }
}

#[test]
fn every_length() {
    for length in 0..WHOLE.len() + 1 {
        assert_eq!(read(&whole()[..length]), Err(60), "{length}");
    }
}

#[test]
fn refusals_by_number_in_order() {
    for (bytes, refusal) in [
        (&[][..], 60),
        (&[1], 60),
        (&[0x80, 0], 61),
        (&[0x80, 0x80, 0x80, 0x80, 16], 62),
        (&[0x80, 0x80, 0x80, 0x80, 0x80, 0], 62),
        (&[0x80, 0x80, 0x80, 0x80, 0], 61),
        (&[0x80, 0x80, 0x80, 0x80], 60),
        (&[0x80, 0, 0x80, 0x80, 0x80, 0x80, 16], 61),
        (&[1, 0], 10),
        (&[1, 0, 0x80, 0], 10),
        (&[1, 0x80, 0], 61),
        (&[0, 0], 10),
        (&[1, 1, 4, 2], 64),
        (&[1, 2, 4, 2], 64),
        (&[1, 2, 4, 2, 0x80, 0], 64),
        (&[1, 2, 2, 4, 0x80, 0], 61),
        (&[1, 1, 4, 0x80, 0], 61),
        (&[1, 1, 2, 4, 9], 63),
        (&[0, 1, 9], 63),
        (&[1, 1, 2, 1], 64),
        (&[0xFF, 0xFF, 0xFF, 0xFF, 15, 0xFF, 0xFF, 0xFF, 0xFF, 15], 60),
        (&[0xFF, 0xFF, 0xFF, 0xFF, 15, 0xFF, 0xFF, 0xFF, 0xFF, 15, 2, 1], 64),
    ] {
        assert_eq!(read(bytes), Err(refusal), "{bytes:?}");
        assert_eq!(pair(bytes, 9, 9), Err(refusal), "{bytes:?}");
    }
}

/// More channels than a file can have.
#[test]
fn any_counts() {
    assert_eq!(read(&[0, 0xFF, 0xFF, 0xFF, 0xFF, 15]).unwrap().channels, u32::MAX);
    let many = [&[1, 0x80, 0x80, 4][..], &[0, 0].repeat(65_536)].concat();
    assert_eq!(read(&many).unwrap().pairs, vec![(0, 0); 65_536]);
    assert_eq!([pair(&many, 0, 65_535), pair(&many, 0, 65_536)], [Ok((0, 0)), Err(67)]);
}
