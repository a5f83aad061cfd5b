//! Refusals of re-encoding, by number and in order.
use crate::blocks::{differences, file, flagged, raw};
use crate::faults::{put, set_end};
use crate::files::{Block, File};
use crate::{one_sample, reencoded, refused, spec_of};
use ncw::boundary::{reencode, REFUSED};
use ncw::{encode_pcm, encode_pcm_with_template, encode_with_template_into, NcwError, PcmSpec, StereoMode};
use std::io::ErrorKind;

/// All that re-encoding is asked with.
struct Call {
    samples: Vec<i32>,
    spec: PcmSpec,
    template: Vec<u8>,
    room: usize,
}

/// A refusal's number, and what makes a call that is refused by it.
type Fault = (u32, fn(&mut Call));

impl Call {
    fn number(&self) -> Option<u32> {
        let mut room = vec![0xA5; self.room];
        let answer = encode_with_template_into(&self.samples, self.spec, &self.template, &mut room);
        assert!(answer.is_ok() || room.iter().all(|byte| *byte == 0xA5));
        answer.err().map(|refused| refused.number().unwrap())
    }

    /// The data end so many bytes after the first block's start.
    fn ends_after(&mut self, bytes: usize) {
        set_end(&mut self.template, &laid_out().places(), bytes);
    }

    /// Two bytes of the first block.
    fn word(&mut self, at: usize, value: u64) {
        put(&mut self.template, 128 + at, 2, value);
    }
}

/// One group of mid/side at width 4, and bytes after it.
fn laid_out() -> File {
    let group = vec![flagged(1, differences(4, 4, &[])), flagged(1, differences(-1, 4, &[]))];
    File { tail: vec![9; 40], ..file(2, 16, 2, vec![group]) }
}

fn good() -> Call {
    let template = laid_out().bytes();
    Call { samples: vec![3, 5, 4, 6], spec: spec_of(&template), room: template.len(), template }
}

/// In document 01's order. Each is a part of its own, or takes a part that a later one takes too.
const IN_ORDER: [Fault; 19] = [
    (30, |call| call.spec.sample_rate = 0),
    (31, |call| call.samples.push(0)),
    (32, |call| call.samples[0] = 32_768),
    (1, |call| call.template.truncate(119)),
    (2, |call| call.template[3] ^= 1),
    (40, |call| call.template[12] ^= 1),
    (41, |call| call.template[20] -= 1),
    (42, |call| call.template[120] = 1),
    (43, |call| call.ends_after(11)),
    (35, |call| call.samples[3] += 1),
    (1, |call| call.ends_after(15)),
    (3, |call| call.template[131] ^= 1),
    (44, |call| call.word(8, 0)),
    (45, |call| call.word(10, 3)),
    (4, |call| call.word(8, 33)),
    (1, |call| call.ends_after(271)),
    (36, |call| call.samples[..2].copy_from_slice(&[-5, -3])),
    (46, |call| call.ends_after(2 * 272 + 1)),
    (50, |call| call.room -= 1),
];

/// The number of a call with these faults, the last made first.
fn with(faults: &[Fault]) -> Option<u32> {
    let mut call = good();
    faults.iter().rev().for_each(|(_, fault)| fault(&mut call));
    call.number()
}

#[test]
fn each_refusal_comes_before_those_after_it() {
    assert_eq!(with(&[]), None);
    for (first, fault) in IN_ORDER.into_iter().enumerate() {
        let number = Some(fault.0);
        assert_eq!((with(&[fault]), with(&IN_ORDER[first..])), (number, number), "fault {first}");
        for later in IN_ORDER.into_iter().skip(first + 1) {
            assert_eq!(with(&[fault, later]), number, "fault {first}, and {}", later.0);
        }
    }
}

#[test]
fn settings() {
    let template = one_sample();
    let number = |channels, bits_per_sample, sample_rate| {
        encode_pcm_with_template(&[5], PcmSpec { channels, bits_per_sample, sample_rate }, &template)
            .unwrap_err()
            .number()
    };
    for (channels, depth) in [(0, 16), (3, 16), (65_535, 24), (1, 0), (1, 8), (1, 32), (1, 17)] {
        assert_eq!(number(channels, depth, 44_100), Some(30), "{channels} {depth}");
    }
    assert_eq!([(1, 24, 44_100), (1, 16, 44_101)].map(|(c, d, r)| number(c, d, r)), [Some(40); 2]);
    assert_eq!(number(2, 16, 44_100), Some(31));
}

/// Of every other count of channels and depth that encoding takes, a file is no template, not of its own samples either.
#[test]
fn settings_that_encoding_alone_takes() {
    for (channels, depth) in (1..=8).flat_map(|channels| [8, 16, 24, 32].map(|depth| (channels, depth))) {
        let spec = PcmSpec { channels, bits_per_sample: depth, sample_rate: 44_100 };
        let samples = vec![5; 2 * usize::from(channels)];
        let file = encode_pcm(&samples, spec, StereoMode::Auto).unwrap();
        let taken = channels <= 2 && [16, 24].contains(&depth);
        let number = encode_pcm_with_template(&samples, spec, &file).err().map(|refused| refused.number().unwrap());
        assert_eq!(number, if taken { None } else { Some(30) }, "{channels} channels, depth {depth}");
    }
}

#[test]
fn values_outside_the_depth() {
    for (depth, limit) in [(16, 1 << 15), (24, 1 << 23)] {
        let template = file(1, depth, 600, vec![vec![raw(32, &[])], vec![raw(32, &[])]]).bytes();
        let with = |place: usize, sample: i32| {
            let mut samples = [0; 600];
            samples[place] = sample;
            reencoded(&samples, &template).map(|_| ()).map_err(|refused| refused.number())
        };
        for place in [0, 511, 512, 599] {
            assert_eq!([limit, -limit - 1, i32::MAX, i32::MIN].map(|sample| with(place, sample)), [Err(Some(32)); 4]);
            assert_eq!([limit - 1, -limit].map(|sample| with(place, sample)), [Ok(()); 2]);
        }
    }
}

#[test]
fn templates_that_end_too_soon() {
    let template = one_sample();
    for length in 0..120 {
        let refused = encode_pcm_with_template(&[5], spec_of(&template), &template[..length]).unwrap_err();
        assert!(matches!(&refused, NcwError::Io(error) if error.kind() == ErrorKind::UnexpectedEof), "{length} bytes");
    }
    for length in 120..272 {
        assert_eq!(refused(&[5], &template[..length]), Some(41), "{length} bytes");
    }
}

#[test]
fn the_originals_names() {
    let with = |place: usize, byte: u8| {
        let mut template = one_sample();
        template[place] = byte;
        reencoded(&[5], &template).unwrap_err()
    };
    assert!(matches!(with(0, 0), NcwError::InvalidFileSignature));
    assert!(matches!(with(128, 0), NcwError::InvalidBlockSignature));
    assert!(matches!(with(136, 33), NcwError::UnsupportedBitDepth(33)));
    assert!(matches!(with(136, 1), NcwError::InvalidHeader("template bits 0 or 1")));
}

/// The template of one sample, with numbers of its header and table set: place, bytes, value.
fn set(parts: &[(usize, usize, u64)]) -> Vec<u8> {
    let mut template = one_sample();
    parts.iter().for_each(|(place, bytes, value)| put(&mut template, *place, *bytes, *value));
    template
}

/// The number where the call is for one sample 5 in mono, 16 bits, 44,100.
fn number(template: &[u8]) -> Option<u32> {
    encode_pcm_with_template(&[5], spec_of(&one_sample()), template).unwrap_err().number()
}

#[test]
fn what_differs_from_the_call() {
    for (place, bytes, value) in
        [(8, 2, 0), (8, 2, 2), (10, 2, 8), (10, 2, 24), (10, 2, 32), (12, 4, 0), (12, 4, 44_101)]
    {
        assert_eq!(number(&set(&[(place, bytes, value)])), Some(40), "{value} at {place}");
    }
    for frames in [0, 2, 512, 1 << 31, u32::MAX.into()] {
        assert_eq!(number(&set(&[(16, 4, frames)])), Some(40), "{frames} frames");
    }
}

#[test]
fn bounds() {
    let most = u64::from(u32::MAX);
    let wrong = [
        (20, 0),
        (20, 119),
        (20, 121),
        (20, 128),
        (20, most),
        (24, 0),
        (24, 119),
        (24, 127),
        (24, 129),
        (24, most),
        (28, 145),
        (28, most),
    ];
    for (place, value) in wrong {
        assert_eq!(number(&set(&[(place, 4, value)])), Some(41), "{value} at {place}");
    }
    assert_eq!(number(&set(&[(20, 4, 119), (24, 4, 127)])), Some(41), "a table in the header");
}

#[test]
fn offsets() {
    for (place, value) in [(120, 1), (120, 144), (124, 0), (124, 143), (124, 145), (28, 143), (28, 0)] {
        assert_eq!(number(&set(&[(place, 4, value)])), Some(42), "{value} at {place}");
    }
    assert_eq!(number(&set(&[(28, 4, 0), (124, 4, 0)])), Some(42), "an empty group");
    let group = || vec![differences(5, 2, &[])];
    let mut template = file(1, 16, 1100, vec![group(), group(), group()]).bytes();
    assert!(reencoded(&[5; 1100], &template).is_ok());
    for (first, second) in [(144, 144), (288, 144), (0, 144), (144, 432), (144, 433), (500, 501)] {
        put(&mut template, 124, 4, first);
        put(&mut template, 128, 4, second);
        assert_eq!(refused(&[5; 1100], &template), Some(42), "{first}, {second}");
    }
}

#[test]
fn offsets_without_frames() {
    let mut template = File { tail: vec![0; 9], ..file(1, 16, 0, Vec::new()) }.bytes();
    assert!(reencoded(&[], &template).is_ok());
    for (size, entry) in [(9, 9), (0, 9), (9, 0)] {
        put(&mut template, 28, 4, size);
        put(&mut template, 120, 4, entry);
        assert_eq!(refused(&[], &template), Some(42), "size {size}, entry {entry}");
    }
}

#[test]
fn short_groups_by_the_flag() {
    let ending = |bytes: u64, flags: u64| number(&set(&[(28, 4, bytes), (124, 4, bytes), (138, 2, flags)]));
    for bytes in 1..12 {
        assert_eq!([0, 1].map(|flags| ending(bytes, flags)), [Some(43); 2], "{bytes} bytes");
    }
    for bytes in 12..144 {
        assert_eq!([0, 1].map(|flags| ending(bytes, flags)), [Some(1), Some(34)], "{bytes} bytes");
    }
}

#[test]
fn mid_side_without_stereo() {
    assert_eq!(number(&set(&[(138, 2, 1)])), Some(34));
    assert_eq!(number(&set(&[(138, 2, 1), (128, 4, 0)])), Some(34), "before the signature");
    assert_eq!(number(&set(&[(138, 2, 3), (136, 2, 0)])), Some(34), "before bits and flags");
}

#[test]
fn parity() {
    let group = || vec![flagged(1, raw(16, &[])), raw(16, &[])];
    let template = file(2, 16, 700, vec![group(), group()]).bytes();
    for place in [0, 511, 512, 699] {
        let mut samples = vec![-3; 1400];
        assert!(reencoded(&samples, &template).is_ok());
        samples[2 * place + 1] += 1;
        assert_eq!(refused(&samples, &template), Some(35), "frame {place}");
    }
}

#[test]
fn bits_and_flags() {
    assert_eq!([0, 1].map(|bits| number(&set(&[(136, 2, bits)]))), [Some(44); 2]);
    for flags in [2, 4, 0x0100, 0x8000, 0xFFFE] {
        assert_eq!(number(&set(&[(138, 2, flags)])), Some(45), "{flags}");
        assert_eq!(number(&set(&[(138, 2, flags), (136, 2, 0)])), Some(44), "{flags}");
        assert_eq!(number(&set(&[(138, 2, flags), (136, 2, 33)])), Some(45), "{flags}");
    }
}

/// Three groups of two channels, all frames active. Most pairs of packed bytes would be refused as a bits word.
fn six_blocks() -> File {
    let traps = |width: u32| vec![0x2222_2222 >> (32 - width); 512];
    let groups = vec![
        vec![raw(9, &traps(9)), differences(1, 2, &[])],
        vec![raw(24, &traps(24)), differences(0, 32, &traps(32))],
        vec![raw(32, &traps(32)), raw(1, &[-1; 512])],
    ];
    file(2, 24, 1536, groups)
}

#[test]
fn the_bits_word_is_found_in_any_block() {
    assert!(reencoded(&[0; 3072], &six_blocks().bytes()).is_ok());
    for (bits, place) in [33, -33, 34, i16::MAX, i16::MIN].into_iter().flat_map(|bits| (0..6).map(move |k| (bits, k))) {
        let mut beyond = six_blocks();
        beyond.groups[place / 2][place % 2].bits = bits;
        let refused = reencoded(&[0; 3072], &beyond.bytes()).unwrap_err();
        assert!(matches!(refused, NcwError::UnsupportedBitDepth(word) if word == bits), "{bits} in block {place}");
    }
}

#[test]
fn the_first_of_two_bits_words() {
    let mut twice = six_blocks();
    (twice.groups[1][1].bits, twice.groups[2][0].bits) = (40, 50);
    assert!(matches!(reencoded(&[0; 3072], &twice.bytes()), Err(NcwError::UnsupportedBitDepth(40))));
}

type Change = fn(Block) -> Block;

/// What a block is refused by, whatever comes after it.
const OF_BLOCKS: [(u32, Change); 4] = [
    (44, |block| Block { bits: 1, ..block }),
    (45, |block| flagged(2, block)),
    (4, |block| Block { bits: -33, ..block }),
    (36, |block| Block { bits: -1, run: vec![0; 64], ..block }),
];

#[test]
fn blocks_are_looked_at_in_order() {
    let with = |changes: [Change; 4]| {
        let [a, b, c, d] = changes.map(|change| change(raw(16, &[])));
        let template = file(2, 16, 600, vec![vec![a, b], vec![c, d]]).bytes();
        reencoded(&[7; 1200], &template).err().and_then(|refused| refused.number())
    };
    let good: [Change; 4] = [|block| block; 4];
    assert_eq!(with(good), None);
    for (first, (number, change)) in (0..4).flat_map(|first| OF_BLOCKS.map(|fault| (first, fault))) {
        for later in OF_BLOCKS {
            let mut changes = good;
            changes[first..].fill(later.1);
            changes[first] = change;
            assert_eq!(with(changes), Some(number), "block {first}, and {} in those after it", later.0);
        }
    }
}

#[test]
fn a_group_is_looked_at_before_the_next() {
    let group = |flags, more: usize| {
        let second = Block { run: vec![0; 1024 + more], ..raw(16, &[]) };
        vec![flagged(flags, raw(16, &[])), second]
    };
    let template = |first, second| file(2, 16, 513, vec![first, second]).bytes();
    let mut samples = [3; 1026];
    assert_eq!(refused(&samples, &template(group(0, 1), group(0, 0))), Some(46));
    assert_eq!(refused(&samples, &template(group(0, 0), group(0, 1))), Some(46));
    samples[1024] = 4;
    assert_eq!(refused(&samples, &template(group(0, 0), group(1, 0))), Some(35));
    assert_eq!(refused(&samples, &template(group(0, 1), group(1, 0))), Some(46));
}

#[test]
fn what_only_the_boundary_can_be_asked() {
    for length in [1, 2, 3, 5] {
        assert_eq!(reencode(&[0xFF; 8][..length], 0, 0, 0, &[], &mut []), REFUSED + 39);
    }
    assert_eq!(reencode(&[], 0, 0, 0, &[], &mut []), REFUSED + 30);
    assert_eq!(reencode(&[], 1, 16, 1, &[], &mut []), REFUSED + 1);
}
