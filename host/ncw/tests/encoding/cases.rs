//! Document 01's cases of encoding.
use crate::blocks::{differences, file, flagged, raw};
use crate::files::{bits_words, Block};
use crate::{mono, number, spec, stereo, MODES};
use ncw::{encode_pcm, StereoMode};

/// A raw block with its base, which is the first value.
fn raw_from(width: u32, values: &[i32]) -> Block {
    Block { base: values[0], ..raw(width, values) }
}

/// The values, padded by the last.
fn padded(values: &[i32]) -> Vec<i32> {
    let mut all = values.to_vec();
    all.resize(512, *values.last().unwrap());
    all
}

#[test]
fn a_file_without_frames() {
    let mut bytes =
        vec![0x01, 0xA8, 0x9E, 0xD6, 0x31, 0x01, 0x00, 0x00, 0x02, 0x00, 0x10, 0x00, 0x44, 0xAC, 0x00, 0x00];
    bytes.extend([0x00, 0x00, 0x00, 0x00, 0x78, 0x00, 0x00, 0x00, 0x7C, 0x00, 0x00, 0x00, 0x00, 0x00, 0x00, 0x00]);
    bytes.resize(124, 0);
    for mode in MODES {
        assert_eq!(stereo(&[], mode).unwrap(), bytes);
    }
}

#[test]
fn one_sample() {
    let encoded = mono(&[5]);
    assert_eq!((encoded.len(), number(&encoded, 24), number(&encoded, 28)), (272, 128, 144));
    assert_eq!(encoded[128..144], [0x16, 0x0C, 0x9A, 0x3E, 5, 0, 0, 0, 2, 0, 0, 0, 0, 0, 0, 0]);
    assert_eq!(encoded[144..], [0; 128]);
    assert_eq!(encoded, file(1, 16, 1, vec![vec![differences(5, 2, &[])]]).bytes());
}

#[test]
fn differences_are_packed() {
    let two = mono(&[7, 8, 7, 7, 5]);
    assert_eq!((bits_words(&two), two[144]), (vec![2], 0x8D));
    let three = mono(&[0, 0, 1, 3, 6, 2, -1, -3, -4]);
    assert_eq!((bits_words(&three), &three[144..147]), (vec![3], &[0x88, 0xC6, 0xFA][..]));
}

#[test]
fn the_widest_differences_and_raw() {
    let blocks = |step: i32| {
        let encoded = mono(&[0, step]);
        (bits_words(&encoded), number(&encoded, 28))
    };
    assert_eq!(blocks(16_383), (vec![15], 976));
    assert_eq!(blocks(16_384), (vec![-16], 1_040));
    assert_eq!(blocks(-16_384), (vec![15], 976));
    assert_eq!(blocks(-16_385), (vec![-16], 1_040));
}

#[test]
fn raw_blocks_have_a_base_and_are_padded_by_the_last_sample() {
    let samples = [-9, 32_767, -32_768, 4];
    assert_eq!(mono(&samples), file(1, 16, 4, vec![vec![raw_from(16, &padded(&samples))]]).bytes());
    let wide = samples.map(|sample| 256 * sample);
    let encoded = encode_pcm(&wide, spec(1, 24), StereoMode::Direct).unwrap();
    assert_eq!(encoded, file(1, 24, 4, vec![vec![raw_from(24, &padded(&wide))]]).bytes());
}

#[test]
fn mid_and_side() {
    let group = |mid: Block, side: Block| file(2, 16, 1, vec![vec![flagged(1, mid), flagged(1, side)]]).bytes();
    let encoded = |left, right| stereo(&[left, right], StereoMode::MidSide).map_err(|refused| refused.number());
    assert_eq!(encoded(3, 5), Ok(group(differences(4, 2, &[]), differences(-1, 2, &[]))));
    assert_eq!(encoded(-32_768, 32_766), Ok(group(differences(-1, 2, &[]), differences(-32_767, 2, &[]))));
    assert_eq!(encoded(3, 4), Err(Some(35)));
}

#[test]
fn auto_takes_what_is_strictly_smaller() {
    let tie = stereo(&[5, 5], StereoMode::Auto).unwrap();
    assert_eq!((number(&tie, 28), tie[138]), (288, 0));
    assert_eq!(tie, stereo(&[5, 5], StereoMode::Direct).unwrap());
    let alike = [5, 5, 105, 105];
    let smaller = stereo(&alike, StereoMode::Auto).unwrap();
    assert_eq!((bits_words(&smaller), smaller[138]), (vec![8, 2], 1));
    assert_eq!(smaller, stereo(&alike, StereoMode::MidSide).unwrap());
    let against = [5, 5, 105, 5];
    assert_eq!(bits_words(&stereo(&against, StereoMode::MidSide).unwrap()), [7, 7]);
    assert_eq!(bits_words(&stereo(&against, StereoMode::Auto).unwrap()), [8, 2]);
}

#[test]
fn auto_decides_by_group() {
    let mut samples: Vec<i32> = (0..700).flat_map(|k| [9 * k, 9 * k]).collect();
    let flags = |samples: &[i32]| {
        let encoded = stereo(samples, StereoMode::Auto).unwrap();
        let second = 132 + number(&encoded, 124) as usize;
        [encoded[132 + 10], encoded[second + 10]]
    };
    assert_eq!(flags(&samples), [1, 1]);
    samples[2 * 699] += 1;
    assert_eq!(flags(&samples), [1, 0]);
    samples[1] += 1;
    assert_eq!(flags(&samples), [0, 0]);
}

#[test]
fn a_group_begins_after_512_frames() {
    for (frames, offset, entries) in [(512, 128, &[0, 144][..]), (513, 132, &[0, 144, 288])] {
        let encoded = mono(&vec![1; frames]);
        assert_eq!((number(&encoded, 16), number(&encoded, 24)), (frames as u32, offset));
        let table = (120..offset as usize).step_by(4).map(|at| number(&encoded, at));
        assert!(table.eq(entries.iter().copied()));
        assert_eq!(encoded.len(), offset as usize + 144 * (entries.len() - 1));
    }
}
