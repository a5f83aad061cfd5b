//! What is lent: how much is needed, what stays, and that 50 is the last of all.
use crate::{build, four, peaks};
use ncw::{boundary, build_peaks_into};

const REFUSED: u64 = boundary::REFUSED;

#[test]
fn every_room() {
    let file = four(2, 0).bytes();
    let summary = build(&file).unwrap();
    for length in 0..110 {
        let mut room = vec![0xA5; length];
        let answer = build_peaks_into(&file, &mut room).map_err(|refused| refused.number());
        let expected = if length < summary.len() { Err(Some(50)) } else { Ok(summary.len()) };
        assert_eq!(answer, expected, "{length}");
        let written = answer.unwrap_or(0);
        assert_eq!((&room[..written], &room[written..]), (&summary[..written], &vec![0xA5; length - written][..]));
    }
}

#[test]
fn fifty_is_the_last() {
    let mut bad = four(2, 0);
    bad.groups[1][1].bits = 33;
    let mut room = [0xA5; 3];
    let mut number = |file: &[u8]| build_peaks_into(file, &mut room).unwrap_err().number();
    assert_eq!([number(&bad.bytes()), number(&four(2, 2).bytes()), number(&four(2, 0).bytes())], [4, 66, 50].map(Some));
    assert_eq!(room, [0xA5; 3]);
    let refused = |summary: &[u8], group, channel| boundary::peak(summary, group, channel, &mut [0; 7]) - REFUSED;
    let summary = build(&four(2, 0).bytes()).unwrap();
    let cut = &summary[..summary.len() - 1];
    assert_eq!([refused(&summary, 3, 1), refused(&summary, 3, 2), refused(cut, 3, 2)], [50, 67, 60]);
}

#[test]
fn the_boundary_as_it_is() {
    let file = four(2, 0).bytes();
    let mut room = [0xA5; 100];
    let length = boundary::peaks(&file, &mut room);
    let summary = build(&file).unwrap();
    assert_eq!((length, &room[..summary.len()]), (summary.len() as u64, &summary[..]));
    let held = peaks::read(&summary).unwrap();
    let bytes = |pair: (i32, i32)| [pair.0, pair.1].map(i32::to_le_bytes).concat();
    let mut pair = [0xA5; 9];
    assert_eq!(boundary::peak(&summary, 2, 1, &mut pair), 8, "the group, then the channel");
    assert_eq!((&pair[..8], pair[8]), (&bytes(held.pairs[5])[..], 0xA5));
    assert_eq!(boundary::peak(&summary, 1, 2, &mut pair), REFUSED + 67);
    let mut pairs = [0xA5; 65];
    assert_eq!(boundary::peaks_all(&summary, &mut pairs), 64);
    assert_eq!(
        (&pairs[..64], pairs[64]),
        (&held.pairs.iter().flat_map(|pair| bytes(*pair)).collect::<Vec<_>>()[..], 0xA5)
    );
    assert_eq!(boundary::peaks_all(&summary, &mut pairs[..63]), REFUSED + 50);
    assert_eq!(boundary::peaks_check(&summary, &file), 1);
    assert_eq!(boundary::peaks_check(&summary[1..], &file), 0);
    assert_eq!(boundary::peaks_check(&file, &summary), REFUSED + 1, "the summary, then the file");
    assert_eq!([boundary::peaks(&[], &mut []), boundary::peaks_check(&[], &[])], [REFUSED + 1; 2]);
    assert_eq!([boundary::peak(&[], 0, 0, &mut []), boundary::peaks_all(&[], &mut [])], [REFUSED + 60; 2]);
}
