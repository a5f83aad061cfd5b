//! Refusals by the original's names, by number, and with the bits word of 4.
use crate::blocks::{at_depth, differences, file, filled, noisy, raw};
use crate::cases::one_sample;
use crate::files::{Block, File};
use crate::random::Random;
use crate::{decoded, read};
use ncw::NcwError;
use std::error::Error;
use std::io::ErrorKind;

/// The file of one sample with a byte changed.
fn changed(place: usize, byte: u8) -> Vec<u8> {
    let mut file = one_sample();
    file[place] = byte;
    file
}

#[test]
fn the_originals_names() {
    assert!(matches!(read(&changed(0, 0)), Err(NcwError::InvalidFileSignature)));
    assert!(matches!(read(&changed(128, 0)), Err(NcwError::InvalidBlockSignature)));
    assert!(matches!(read(&changed(8, 0)), Err(NcwError::InvalidHeader(_))));
    let short = read(&one_sample()[..271]).unwrap_err();
    assert!(matches!(&short, NcwError::Io(error) if error.kind() == ErrorKind::UnexpectedEof));
    assert_eq!((short.to_string(), short.source().is_some()), ("the input ends too soon".to_string(), true));
}

#[test]
fn numbers_of_opening() {
    #[rustfmt::skip]
    let faults = [
        (0, 0, 2), (8, 0, 10), (10, 17, 11), (20, 119, 13), (24, 119, 14), (24, 127, 15), (28, 145, 1), (28, 143, 16),
        (120, 1, 18), (128, 0, 3),
    ];
    for (place, byte, number) in faults {
        assert_eq!(read(&changed(place, byte)).unwrap_err().number(), Some(number), "byte {place}");
        assert_eq!(ncw::open(&changed(place, byte)).unwrap_err().number(), Some(number), "byte {place}");
    }
}

#[test]
fn a_mono_group_has_80_bytes() {
    let with = |bytes: usize| {
        let block = Block { bits: 1, run: vec![0; bytes - 16], ..raw(1, &[]) };
        decoded(&file(1, 16, 2, vec![vec![block]]).bytes())
    };
    assert_eq!(with(79).unwrap_err().number(), Some(19));
    assert_eq!(with(80).unwrap(), [0, 0]);
    assert_eq!(with(81).unwrap_err().number(), Some(22));
}

#[test]
fn a_first_block_with_bits_33_opens() {
    let file = changed(136, 33);
    let refused = read(&file).unwrap().decode_samples().unwrap_err();
    assert!(matches!(refused, NcwError::UnsupportedBitDepth(33)));
    assert_eq!((refused.number(), refused.to_string()), (Some(4), "bits word beyond 32 either way: 33".to_string()));
}

/// Three groups of two channels, in all codings. Most pairs of packed bytes would be refused as a bits word.
fn six_blocks() -> File {
    let traps = |width: u32| vec![0x2222_2222 >> (32 - width); 512];
    let groups = vec![
        vec![raw(9, &traps(9)), differences(1, 1, &[])],
        vec![at_depth(24, &traps(24)), differences(0, 32, &traps(32))],
        vec![raw(32, &traps(32)), at_depth(24, &traps(24))],
    ];
    file(2, 24, 1100, groups)
}

#[test]
fn the_bits_word_is_found_in_any_block() {
    assert_eq!(decoded(&six_blocks().bytes()).unwrap().len(), 2200);
    for (bits, place) in [33, -33, 34, i16::MAX, i16::MIN].into_iter().flat_map(|bits| (0..6).map(move |k| (bits, k))) {
        let mut beyond = six_blocks();
        beyond.groups[place / 2][place % 2].bits = bits;
        let refused = decoded(&beyond.bytes()).unwrap_err();
        assert!(matches!(refused, NcwError::UnsupportedBitDepth(word) if word == bits), "{bits} in block {place}");
    }
}

#[test]
fn the_first_of_two_bits_words() {
    let mut twice = filled(1, 1100, || noisy(2, &mut Random::new(2)));
    (twice.groups[1][0].bits, twice.groups[2][0].bits) = (40, 50);
    assert!(matches!(decoded(&twice.bytes()), Err(NcwError::UnsupportedBitDepth(40))));
}
