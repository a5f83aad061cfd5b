//! Document 02's settings: 1 to 8 channels, 8, 16, 24 and 32 bits.
use crate::encoded;
use crate::files::bits_words;
use crate::random::Random;
use crate::{number, samples, spec, DEPTHS, MODES};
use ncw::{encode_pcm, StereoMode};

const LOW: i32 = i32::MIN;
const HIGH: i32 = i32::MAX;

/// Length, and the bits word of each block.
fn written(samples: &[i32], channels: u16, depth: u16) -> (usize, Vec<i16>) {
    let file = encode_pcm(samples, spec(channels, depth), StereoMode::Auto).unwrap();
    (file.len(), bits_words(&file))
}

#[test]
fn differences_wrap() {
    assert_eq!(written(&[HIGH, LOW], 1, 32), (272, vec![2]));
    assert_eq!(written(&[LOW, HIGH], 1, 32), (272, vec![2]));
    let file = encode_pcm(&[HIGH, LOW], spec(1, 32), StereoMode::Auto).unwrap();
    assert_eq!((number(&file, 132) as i32, file[144]), (HIGH, 1));
}

#[test]
fn the_widest_differences_and_raw() {
    let edge = 1 << 30;
    assert_eq!(written(&[0, edge - 1], 1, 32), (128 + 16 + 64 * 31, vec![31]));
    assert_eq!(written(&[0, -edge], 1, 32), (128 + 16 + 64 * 31, vec![31]));
    assert_eq!(written(&[0, edge], 1, 32), (128 + 2_064, vec![-32]));
    assert_eq!(written(&[0, -edge - 1], 1, 32), (128 + 2_064, vec![-32]));
    assert_eq!(written(&[0, 63], 1, 8), (128 + 464, vec![7]));
    assert_eq!(written(&[0, 64], 1, 8), (128 + 528, vec![-8]));
}

#[test]
fn mid_and_side_of_exact_sums() {
    for (left, right, mid, side) in [(HIGH, LOW + 1, 0, HIGH), (LOW, HIGH - 1, -1, LOW + 1), (LOW, LOW, LOW, 0)] {
        let file = encode_pcm(&[left, right], spec(2, 32), StereoMode::MidSide).unwrap();
        assert_eq!([132, 132 + 144].map(|at| number(&file, at) as i32), [mid, side], "{left}, {right}");
        assert_eq!([138, 138 + 144].map(|at| file[at]), [1, 1]);
        let tie = encode_pcm(&[left, right], spec(2, 32), StereoMode::Auto).unwrap();
        assert_eq!((number(&tie, 132) as i32, tie[138]), (left, 0));
    }
}

/// The flags of each block of one group.
fn flags(file: &[u8]) -> Vec<u8> {
    let mut at = 128;
    let mut flags = |bits: &i16| {
        let block = at;
        at += 16 + 64 * usize::from(bits.unsigned_abs());
        file[block + 10]
    };
    bits_words(file).iter().map(|bits| flags(bits)).collect()
}

#[test]
fn auto_takes_mid_side_of_two_channels_alone() {
    for depth in DEPTHS {
        let of = |frame: &[i32]| {
            let frames: Vec<i32> = (0..9).flat_map(|k| frame.iter().map(move |sample| sample * (k % 3))).collect();
            encode_pcm(&frames, spec(frame.len() as u16, depth), StereoMode::Auto).unwrap()
        };
        assert_eq!(flags(&of(&[30, 30])), [1, 1], "depth {depth}");
        assert_eq!(flags(&of(&[30, 30, 2])), [0; 3], "depth {depth}");
        assert_eq!(flags(&of(&[2, 30, 30])), [0; 3], "depth {depth}");
        assert_eq!(flags(&of(&[30, 30, 30, 30])), [0; 4], "depth {depth}");
    }
}

/// Every count of channels, every depth and every mode, in one group and in two.
#[test]
fn byte_for_byte_as_the_reference_has_it() {
    let random = &mut Random::new(20_261_118);
    for (channels, depth) in (1..=8).flat_map(|channels| DEPTHS.map(|depth| (channels, depth))) {
        for (frames, mode) in [0, 1, 5, 514].into_iter().flat_map(|frames| MODES.map(|mode| (frames, mode))) {
            let samples = samples(channels, depth, frames, random);
            let file = encode_pcm(&samples, spec(channels, depth), mode).map_err(|refused| refused.number());
            let of_reference = encoded::encoding(&samples, channels, depth, 44_100, mode as u32);
            let of_reference = of_reference.map_err(|refused| Some(refused.number));
            assert!(file == of_reference, "{channels} channels, depth {depth}, {frames} frames, {mode:?}");
        }
    }
}
