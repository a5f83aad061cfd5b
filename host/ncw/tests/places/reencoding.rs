//! Re-encoding.
use crate::blocks::{file, flagged, raw};
use crate::faults::{put, set_end};
use crate::files::{Block, File};
use crate::{of_length, reencoding, Told, MARK};
use ncw::{boundary, PcmSpec};

/// Three groups of raw blocks of 4 bits.
fn three(channels: u16) -> File {
    let group = || (0..channels).map(|_| raw(4, &[])).collect();
    file(channels, 16, 1_100, (0..3).map(|_| group()).collect())
}

fn silence(channels: u16) -> Vec<i32> {
    vec![0; 1_100 * usize::from(channels)]
}

fn refused(file: &File) -> Option<Told> {
    reencoding(&silence(file.channels), file.channels, 16, &file.bytes())
}

#[test]
fn what_is_accepted_has_no_place() {
    assert_eq!([1, 2].map(|channels| refused(&three(channels))), [None; 2]);
}

/// 32 and 42 are found at a value and at an entry, and name no group all the same.
#[test]
fn what_concerns_no_group() {
    let template = three(2).bytes();
    let with = |change: fn(&mut Vec<i32>, &mut Vec<u8>)| {
        let (mut samples, mut template) = (silence(2), template.clone());
        change(&mut samples, &mut template);
        reencoding(&samples, 2, 16, &template)
    };
    let nowhere = |number| Some((number, 0, 0, 0));
    assert_eq!(reencoding(&silence(2), 3, 16, &template), nowhere(30));
    assert_eq!(with(|samples, _| samples.push(0)), nowhere(31));
    assert_eq!(with(|samples, _| samples[2_100] = 32_768), nowhere(32), "in the last group");
    assert_eq!(with(|_, template| template.truncate(119)), nowhere(1));
    assert_eq!(with(|_, template| template[0] = 0), nowhere(2));
    assert_eq!(with(|samples, _| samples.truncate(2_000)), nowhere(40));
    assert_eq!(with(|_, template| template.truncate(1_000)), nowhere(41));
    assert_eq!(with(|_, template| put(template, 128, 4, 544)), nowhere(42), "an empty second group");
    assert_eq!(with(|_, template| put(template, 132, 4, 1_631)), nowhere(42), "the last entry");
}

#[test]
fn too_little_room() {
    let (template, bytes) = (three(2).bytes(), vec![0; 4 * 2_200]);
    let word = |room: usize| boundary::reencode_refusal(&bytes, 2, 16, 44_100, &template, room as u64);
    assert_eq!([0, template.len() - 1, template.len(), usize::MAX].map(word), [50, 50, 0, 0]);
    let spec = PcmSpec { channels: 2, bits_per_sample: 16, sample_rate: 44_100 };
    let refused = ncw::reencode_refusal(&silence(2), spec, &template, template.len() - 1).unwrap();
    assert_eq!((refused.number(), refused.group, refused.channel, refused.place), (Some(50), 0, 0, 0));
}

/// 39 is a plain number as well, and comes first.
#[test]
fn a_part_of_a_sample() {
    let template = three(2).bytes();
    assert_eq!(boundary::reencode_refusal(&[0; 9], 2, 16, 44_100, &template, u64::MAX), 39);
    assert_eq!(boundary::reencode_refusal(&[0; 3], 0, 0, 0, &[], 0), 39);
}

/// The group alone: 43, 34, 35 and 46, the last of them with two channels too.
#[test]
fn of_a_group() {
    for group in 0..3 {
        let at = |number| Some((number, 0, group as u32, 0));
        let mut short = three(2);
        short.groups[group] = vec![raw(4, &[])];
        let mut bytes = short.bytes();
        let end = short.places().blocks[group][0] - short.places().start + 11;
        if group == 2 {
            set_end(&mut bytes, &short.places(), end);
        } else {
            put(&mut bytes, 120 + 4 * (group + 1), 4, end as u64);
        }
        assert_eq!(reencoding(&silence(2), 2, 16, &bytes), at(43));
        let mut mono = three(1);
        mono.groups[group][0].flags = 1;
        assert_eq!(refused(&mono), at(34));
        let mut odd = three(2);
        odd.groups.iter_mut().skip(group).for_each(|blocks| blocks[0].flags = 1);
        assert_eq!(reencoding(&parity_differs(), 2, 16, &odd.bytes()), at(35), "and in those behind it");
        for channels in [1, 2] {
            let mut left = three(channels);
            let last = usize::from(channels) - 1;
            left.groups[group][last] = of_length(273, raw(4, &[]));
            assert_eq!(refused(&left), at(46), "{channels} channels");
        }
    }
}

/// In every frame.
fn parity_differs() -> Vec<i32> {
    (0..2_200).map(|k| k % 2).collect()
}

type Change = fn(Block) -> Block;

/// What a block is refused by, and what is told with it.
const OF_BLOCKS: [(u32, i16, Change); 6] = [
    (44, 0, |block| Block { bits: 0, ..block }),
    (44, 0, |block| Block { bits: 1, ..block }),
    (45, 0, |block| flagged(2, block)),
    (4, 33, |block| Block { bits: 33, ..block }),
    (4, i16::MIN, |block| Block { bits: i16::MIN, ..block }),
    (36, 0, |block| of_length(80, Block { bits: -1, ..block })),
];

#[test]
fn blocks_by_group_and_channel() {
    let sevens = vec![7; 2_200];
    for (group, channel) in (0..3).flat_map(|group| [0, 1].map(|channel| (group, channel))) {
        for (number, with, change) in OF_BLOCKS {
            let mut file = three(2);
            let block = file.groups[group].remove(channel);
            file.groups[group].insert(channel, change(block));
            let expected = Some((number, with as u16, group as u32, channel as u16));
            assert_eq!(reencoding(&sevens, 2, 16, &file.bytes()), expected);
        }
        let mut bytes = three(2).bytes();
        bytes[three(2).places().blocks[group][channel] + MARK] ^= 1;
        assert_eq!(reencoding(&sevens, 2, 16, &bytes), Some((3, 0, group as u32, channel as u16)));
    }
}

/// A header or values that the group has no bytes for.
#[test]
fn groups_that_end_too_soon() {
    for (length, group) in [16, 17, 271].into_iter().flat_map(|length| (0..3).map(move |group| (length, group))) {
        let mut file = three(2);
        file.groups[group][1] = of_length(length, raw(4, &[]));
        assert_eq!(refused(&file), Some((1, 0, group as u32, 1)), "{length} bytes of the second block");
        file.groups[group].remove(1);
        assert_eq!(refused(&file), Some((1, 0, group as u32, 1)), "no second block");
        file.groups[group][0] = of_length(length, raw(4, &[]));
        assert_eq!(refused(&file), Some((1, 0, group as u32, 0)), "{length} bytes of the first block");
    }
}
