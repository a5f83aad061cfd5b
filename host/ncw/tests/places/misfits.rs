//! The place of 36.
use crate::blocks::{differences, file, flagged, raw};
use crate::files::Block;
use crate::{reencoding, Told};
use ncw::boundary;

/// Two groups and a third of ten frames, of two channels: the blocks that `block` makes.
fn template(block: impl Fn() -> Block) -> Vec<u8> {
    file(2, 16, 1_034, (0..3).map(|_| vec![block(), block()]).collect()).bytes()
}

/// Silence but for these samples: frame, channel, value.
fn samples(changes: &[(usize, usize, i32)]) -> Vec<i32> {
    let mut samples = vec![0; 2 * 1_034];
    changes.iter().for_each(|(frame, channel, value)| samples[2 * frame + channel] = *value);
    samples
}

fn of_raw(changes: &[(usize, usize, i32)]) -> Option<Told> {
    reencoding(&samples(changes), 2, 16, &template(|| raw(4, &[])))
}

fn of_differences(changes: &[(usize, usize, i32)]) -> Option<Told> {
    reencoding(&samples(changes), 2, 16, &template(|| differences(0, 4, &[])))
}

#[test]
fn raw_values_by_their_index_in_the_block() {
    assert_eq!(of_raw(&[(511, 0, 7), (511, 1, -8)]), None);
    for (frame, channel, group, place) in
        [(0, 0, 0, 0), (511, 0, 0, 511), (512, 1, 1, 0), (1_023, 1, 1, 511), (1_033, 0, 2, 9)]
    {
        assert_eq!(of_raw(&[(frame, channel, 8)]), Some((36, place, group, channel as u16)));
        assert_eq!(of_raw(&[(frame, channel, -9)]), Some((36, place, group, channel as u16)));
    }
}

#[test]
fn differences_by_their_earlier_sample() {
    for (frame, channel, group, place) in
        [(1, 0, 0, 0), (511, 1, 0, 510), (513, 0, 1, 0), (1_023, 1, 1, 510), (1_025, 1, 2, 0)]
    {
        assert_eq!(of_differences(&[(frame, channel, 8)]), Some((36, place, group, channel as u16)), "frame {frame}");
    }
    assert_eq!(of_differences(&[(512, 0, 7)]), None, "no difference goes from one group to the next");
}

/// From the last sample to the template's first padded one.
#[test]
fn the_difference_to_the_padded_sample() {
    assert_eq!(of_differences(&[(1_031, 1, 7), (1_032, 1, 14), (1_033, 1, 9)]), Some((36, 9, 2, 1)));
    assert_eq!(of_differences(&[(1_031, 1, 7), (1_032, 1, 14), (1_033, 1, 8)]), None);
}

#[test]
fn the_first_and_not_the_largest() {
    assert_eq!(of_raw(&[(600, 1, 8), (601, 1, 9_000)]), Some((36, 88, 1, 1)));
    assert_eq!(of_raw(&[(600, 0, 8), (512, 1, 8)]), Some((36, 88, 1, 0)), "a lower place in the second channel");
    assert_eq!(of_raw(&[(600, 1, 8), (1_024, 0, 8)]), Some((36, 88, 1, 1)), "a lower place in the next group");
}

/// Mid stands in the first block, side in the second.
#[test]
fn mid_and_side() {
    let of =
        |changes: &[(usize, usize, i32)]| reencoding(&samples(changes), 2, 16, &template(|| flagged(1, raw(4, &[]))));
    assert_eq!(of(&[(700, 0, 8), (700, 1, 6)]), None, "mid 7, side 1");
    assert_eq!(of(&[(700, 0, 8), (700, 1, 8)]), Some((36, 188, 1, 0)), "mid 8");
    assert_eq!(of(&[(700, 0, 8), (700, 1, -8)]), Some((36, 188, 1, 1)), "side 8");
    assert_eq!(of(&[(700, 0, 8), (700, 1, -8), (701, 0, 8), (701, 1, 8)]), Some((36, 189, 1, 0)), "mid before side");
}

/// Each part of the word has bits of its own.
#[test]
fn the_word_of_the_boundary() {
    let bytes: Vec<u8> = samples(&[(1_023, 1, 8)]).iter().flat_map(|sample| sample.to_le_bytes()).collect();
    let word = boundary::reencode_refusal(&bytes, 2, 16, 44_100, &template(|| raw(4, &[])), 0);
    assert_eq!(word, 36 + (511 << 8) + (1 << 24) + (1 << 40));
}
