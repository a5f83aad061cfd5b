//! Ranges of files without damage: the cut of the whole decode, and 51.
use crate::blocks::file;
use crate::{four, read, reader};
use ncw::{encode_pcm, PcmSpec, StereoMode};

/// Frames 90,000 to 90,400 of a long file.
#[test]
fn the_waveform_page() {
    let spec = PcmSpec { channels: 2, bits_per_sample: 24, sample_rate: 44_100 };
    let samples: Vec<i32> = (0..400_000).map(|k: i32| k.wrapping_mul(7_919) % 5_000 + k % 2).collect();
    let file = encode_pcm(&samples, spec, StereoMode::Auto).unwrap();
    assert_eq!(reader(&file).read_frames(90_000, 400).unwrap(), samples[180_000..180_800]);
    assert_eq!(reader(&file).read_frames(199_600, 400).unwrap(), samples[399_200..]);
    assert_eq!(reader(&file).read_frames(199_601, 400).unwrap_err().number(), Some(51));
}

const NEAR_BORDERS: [u32; 15] = [0, 1, 2, 511, 512, 513, 514, 1_023, 1_024, 1_025, 1_535, 1_536, 1_537, 1_599, 1_600];

#[test]
fn cuts_of_the_whole() {
    for (channels, float) in [(1, 0), (2, 0), (3, 0), (8, 0), (1, 2), (2, 2), (5, 2)] {
        let file = four(channels, float).bytes();
        let whole = reader(&file).decode_samples().unwrap();
        for (first, end) in NEAR_BORDERS.iter().flat_map(|first| NEAR_BORDERS.map(|end| (*first, end))) {
            if first <= end {
                let cut = &whole[usize::from(channels) * first as usize..usize::from(channels) * end as usize];
                assert_eq!(read(&file, first, end - first).unwrap(), cut, "{channels} channels, {first} to {end}");
            }
        }
    }
}

/// The sum is one of numbers, and not of 32 bits.
#[test]
fn past_the_end() {
    let most = u32::MAX;
    for file in [four(1, 0).bytes(), four(2, 2).bytes()] {
        for (first, count) in [
            (1_600, 1),
            (1_599, 2),
            (0, 1_601),
            (1_601, 0),
            (1, most),
            (2, most - 1),
            (most, 1),
            (most, 2),
            (most, 1_600),
            (most, most),
            (most, 0),
            (1 << 31, 1 << 31),
            (512, most - 511),
        ] {
            assert_eq!(read(&file, first, count), Err((51, 0)), "{first}, {count}");
        }
    }
}

#[test]
fn no_frames_are_asked_for() {
    let whole = four(2, 0).bytes();
    for first in NEAR_BORDERS {
        assert_eq!(read(&whole, first, 0), Ok(vec![]), "{first}");
    }
    let empty = file(2, 16, 0, vec![]).bytes();
    assert_eq!(read(&empty, 0, 0), Ok(vec![]));
    assert_eq!([read(&empty, 0, 1), read(&empty, 1, 0), read(&empty, 1, u32::MAX)], [(); 3].map(|_| Err((51, 0))));
}

/// 51 comes after all that opening refuses.
#[test]
fn files_that_do_not_open() {
    let whole = four(2, 0);
    let (bytes, places) = (whole.bytes(), whole.places());
    for (at, number) in [(0, 2), (8, 10), (places.table, 18), (places.table + 7, 19), (places.start, 3)] {
        let mut bad = bytes.clone();
        bad[at] = if number == 10 { 0 } else { bad[at] ^ 0x55 };
        for (first, count) in [(0, 0), (0, 1), (1_599, 1), (1_600, 1), (1, u32::MAX)] {
            assert_eq!(read(&bad, first, count), Err((number, 0)), "byte {at}");
        }
    }
    assert_eq!(read(&bytes[..bytes.len() - 1], 9_999, 0), Err((1, 0)));
    assert_eq!(read(&[], 0, 0), Err((1, 0)));
}
