//! Summaries of files: the smallest and the largest of each group and channel, and what is refused.
use crate::blocks::{differences, file, raw};
use crate::{build, check, four, pair};
use ncw::{encode_pcm, NcwReader, PcmSpec, Peaks, StereoMode};
use std::io::Cursor;

/// What fills up the last block would be smaller and larger.
#[test]
fn padding_does_not_count() {
    let values = [&[5, -6, 7][..], &[100, -100]].concat();
    let whole = file(1, 16, 3, vec![vec![raw(8, &values)]]).bytes();
    assert_eq!(build(&whole), Ok(vec![3, 1, 11, 14]));
    let rising = file(1, 16, 514, vec![vec![differences(-3, 2, &[1; 512])], vec![differences(9, 2, &[1; 512])]]);
    assert_eq!(build(&rising.bytes()), Ok(vec![0x82, 4, 1, 5, 0xF8, 7, 18, 20]));
    assert_eq!(Peaks::build(&rising.bytes()).unwrap().get(1, 0), Some((9, 10)));
}

#[test]
fn files_of_every_form() {
    for channels in [1, 2, 3, 5, 8] {
        let bytes = four(channels, 0).bytes();
        let summary = build(&bytes).unwrap();
        let samples = NcwReader::read(Cursor::new(&bytes)).unwrap().decode_samples().unwrap();
        for (g, group) in samples.chunks(512 * usize::from(channels)).enumerate() {
            for c in 0..channels {
                let of_channel = || group.iter().skip(c.into()).step_by(channels.into()).copied();
                let peak = (of_channel().min().unwrap(), of_channel().max().unwrap());
                assert_eq!(pair(&summary, g as u32, c.into()), Ok(peak), "{channels} channels, {g}, {c}");
            }
        }
        assert_eq!(pair(&summary, 0, channels.into()), Err(67));
        assert_eq!(pair(&summary, 4, 0), Err(67));
        assert_eq!(check(&summary, &bytes), Ok(true));
    }
}

#[test]
fn no_frames() {
    let empty = file(3, 24, 0, vec![]).bytes();
    assert_eq!(build(&empty), Ok(vec![0, 3]));
    assert_eq!([pair(&[0, 3], 0, 0), pair(&[0, 3], 0, 3)], [Err(67); 2]);
    let peaks = Peaks::build(&empty).unwrap();
    assert_eq!((peaks.groups(), peaks.pairs().len(), peaks.get(0, 0)), (0, 0, None));
}

/// The ends of 32 bits, which only decoded samples have.
#[test]
fn the_largest_numbers() {
    let both = file(1, 32, 2, vec![vec![raw(32, &[i32::MAX, i32::MIN])]]).bytes();
    assert_eq!(build(&both), Ok(vec![2, 1, 0xFF, 0xFF, 0xFF, 0xFF, 15, 0xFE, 0xFF, 0xFF, 0xFF, 15]));
}

/// Decoding's refusals first, then 66; the bits word of 4 comes with it.
#[test]
fn refused_files() {
    let mut bad = four(2, 0);
    bad.groups[2][1].bits = -40;
    assert_eq!(build(&bad.bytes()), Err(4));
    assert_eq!(Peaks::build(&bad.bytes()).unwrap_err().to_string(), "bits word beyond 32 either way: -40");
    assert_eq!(Peaks::check(&[], &bad.bytes()).unwrap_err().to_string(), "bits word beyond 32 either way: -40");
    assert_eq!(build(&four(2, 2).bytes()), Err(66));
    assert_eq!(Peaks::build(&four(2, 2).bytes()).unwrap_err().to_string(), "a float file has no summary of peaks");
    let mut both = four(1, 2);
    both.groups[3][0].run.push(0);
    assert_eq!(build(&both.bytes()), Err(22));
    assert_eq!([build(&[]), build(&[0; 200])], [Err(1), Err(2)]);
}

/// Many groups, whose summary is shorter than a hundredth of the file.
#[test]
fn a_long_file() {
    let spec = PcmSpec { channels: 2, bits_per_sample: 16, sample_rate: 44_100 };
    let samples: Vec<i32> = (0..400_000).map(|k: i32| k.wrapping_mul(7_919) % 30_000).collect();
    let file = encode_pcm(&samples, spec, StereoMode::Auto).unwrap();
    let peaks = Peaks::build(&file).unwrap();
    assert_eq!((peaks.frames(), peaks.groups(), peaks.channels()), (200_000, 391, 2));
    assert!(100 * peaks.bytes().len() < file.len());
    let of = |from: usize, to: usize| samples[from..to].iter().step_by(2).copied();
    assert_eq!(peaks.get(390, 0), Some((of(399_360, 400_000).min().unwrap(), of(399_360, 400_000).max().unwrap())));
    assert!(Peaks::check(peaks.bytes(), &file).unwrap());
    assert_eq!(format!("{peaks:?}"), "Peaks { frames: 200000, channels: 2, .. }");
}
