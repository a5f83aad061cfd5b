//! Values and differences that don't fit their block: which of them 36 tells, and at which place.
use crate::blocks::{differences, file, flagged, raw};
use crate::faults::put;
use crate::files::{Block, File};
use crate::lists::{edges_of, from_mid_side, woven};
use crate::templates::{with, Reencoding};

/// Blocks of zeros at 4 bits, which hold -8 to 7.
const RAW: fn() -> Block = || raw(4, &[]);
const STEPS: fn() -> Block = || differences(0, 4, &[]);

/// One too high for them, and one too low.
const BEYOND: [i32; 2] = [8, -9];

/// Some of a run's places: the first ones, the last ones, and those about 8, 32, 64 and 256.
const PLACES: [usize; 14] = [0, 1, 2, 7, 8, 31, 32, 63, 64, 255, 256, 509, 510, 511];

pub fn all() -> Vec<Reencoding> {
    let lists: [fn() -> Vec<Reencoding>; 10] = [
        of_values,
        of_steps,
        of_limits,
        of_several,
        of_padded,
        of_mid_side,
        of_channels,
        of_groups,
        of_what_is_behind,
        of_widths,
    ];
    lists.iter().flat_map(|list| list()).collect()
}

/// 16 bits, and these blocks in every group.
fn case(name: &str, samples: &[i32], blocks: &[fn() -> Block]) -> Reencoding {
    let frames = samples.len() / blocks.len();
    let group = || blocks.iter().map(|block| block()).collect();
    let groups = (0..frames.div_ceil(512)).map(|_| group()).collect();
    with(&format!("misfit, {name}"), samples, &file(blocks.len() as u16, 16, frames as u32, groups))
}

/// Zeros, but for some samples.
fn zeros_but(frames: usize, others: &[(usize, i32)]) -> Vec<i32> {
    let mut samples = vec![0; frames];
    others.iter().for_each(|(at, value)| samples[*at] = *value);
    samples
}

/// From zero on by these differences, each at its place; all others are zero.
fn risen(frames: usize, steps: &[(usize, i32)]) -> Vec<i32> {
    let up_to = |k: usize| steps.iter().filter(|(place, _)| *place < k).map(|(_, step)| step).sum();
    (0..frames).map(up_to).collect()
}

// ---- one block

fn of_values() -> Vec<Reencoding> {
    let at = |place: usize| {
        BEYOND.map(|value| case(&format!("a value at {place}: {value}"), &zeros_but(512, &[(place, value)]), &[RAW]))
    };
    PLACES.into_iter().flat_map(at).collect()
}

/// The last difference is the template's, so that 511 is no place of these.
fn of_steps() -> Vec<Reencoding> {
    let at = |place: usize| {
        BEYOND.map(|step| case(&format!("a difference at {place}: {step}"), &risen(512, &[(place, step)]), &[STEPS]))
    };
    PLACES.into_iter().filter(|place| *place < 511).flat_map(at).collect()
}

/// What just fits, beside what just doesn't.
fn of_limits() -> Vec<Reencoding> {
    let lists: [&[(usize, i32)]; 3] = [&[(3, -8), (4, -9)], &[(3, 7), (4, 8)], &[(0, 7), (1, -8), (509, -8), (510, 7)]];
    let both = |list: &[(usize, i32)]| {
        [
            case(&format!("limits, values {list:?}"), &zeros_but(512, list), &[RAW]),
            case(&format!("limits, differences {list:?}"), &risen(512, list), &[STEPS]),
        ]
    };
    lists.into_iter().flat_map(both).collect()
}

/// The first is told: it is neither the largest nor the last. A spike of 8 misses on the way up, one of -8 on the way back, one of 9 on both.
fn of_several() -> Vec<Reencoding> {
    let lists: [&[(usize, i32)]; 3] =
        [&[(5, 8), (6, 20_000), (300, -9)], &[(200, -9), (201, 8), (510, 20_000)], &[(0, 8), (1, -20_000), (2, -9)]];
    let both = |list: &[(usize, i32)]| {
        [
            case(&format!("several values {list:?}"), &zeros_but(512, list), &[RAW]),
            case(&format!("several differences {list:?}"), &risen(512, list), &[STEPS]),
        ]
    };
    let spike = |value: i32| case(&format!("a spike of {value} at 9"), &zeros_but(512, &[(9, value)]), &[STEPS]);
    lists.into_iter().flat_map(both).chain([8, -8, 9, -9].map(spike)).collect()
}

/// A short group: from its last sample to the template's first padded one there is a difference too, and it may wrap.
fn of_padded() -> Vec<Reencoding> {
    let rising: fn() -> Block = || differences(100, 4, &[3; 512]);
    let far: fn() -> Block = || differences(i32::MIN, 31, &[]);
    let far_and_wide: fn() -> Block = || differences(i32::MIN, 32, &[]);
    vec![
        case("padded, 3 frames", &[1, 2, 9], &[STEPS]),
        case("padded, 3 frames, just fitting", &[1, 2, 8], &[STEPS]),
        case("padded, 3 frames, one before it too", &[0, 8, 20], &[STEPS]),
        case("padded, 511 frames", &risen(511, &[(500, 7), (505, 2)]), &[STEPS]),
        case("padded, 514 frames", &risen(514, &[(511, 2), (512, 7)]), &[STEPS]),
        case("padded, by the template's own differences", &[100, 105, 101], &[rising]),
        case("padded, by the template's own, just fitting", &[100, 105, 102], &[rising]),
        case("padded, raw", &[0, 0, 8], &[RAW]),
        case("padded, far away in 31 bits", &[5], &[far]),
        case("padded, far away in 32 bits", &[5], &[far_and_wide]),
    ]
}

// ---- several blocks

/// What misses is mid or side, and not left or right. The first block's bit decides.
fn of_mid_side() -> Vec<Reencoding> {
    let raw: fn() -> Block = || flagged(1, RAW());
    let steps: fn() -> Block = || flagged(1, STEPS());
    let apart = [0, 0, 9, -5];
    vec![
        case("mid/side, side at 1", &from_mid_side(&[0, 0, 0], &[0, 8, 0]), &[raw, raw]),
        case("mid/side, mid at 2", &from_mid_side(&[0, 0, -9], &[0, 0, 0]), &[raw, raw]),
        case("mid/side, mid at 2, side at 1", &from_mid_side(&[0, 0, 8], &[0, -9, 0]), &[raw, raw]),
        case("mid/side, mid at 1, side at 2", &from_mid_side(&[0, 8, 0], &[0, 0, -9]), &[raw, raw]),
        case("mid/side, side at 0 by a difference", &from_mid_side(&[1, 2, 3], &[0, 8, 8]), &[steps, steps]),
        case("mid/side, side at 2 to a padded one", &from_mid_side(&[1, 2, 3], &[-2, -5, -9]), &[steps, steps]),
        case("mid/side, mid at 1, side at 0, by differences", &from_mid_side(&[0, 0, 8], &[0, 8, 8]), &[steps, steps]),
        case("mid/side, left alone does not fit", &apart, &[raw, raw]),
        case("mid/side, left alone does not fit, flags 1, 0", &apart, &[raw, RAW]),
        case("mid/side, left alone does not fit, flags 0, 1", &apart, &[RAW, raw]),
    ]
}

/// Channel 0 before channel 1, wherever in the blocks they miss.
fn of_channels() -> Vec<Reencoding> {
    let wide: fn() -> Block = || raw(6, &[]);
    let two = |left: &[(usize, i32)], right: &[(usize, i32)]| woven(&zeros_but(512, left), &zeros_but(512, right));
    vec![
        case("channels, 2 and 0", &woven(&[0, 0, 8], &[-9, 0, 0]), &[RAW, RAW]),
        case("channels, 511 and 0", &two(&[(511, 8)], &[(0, 8)]), &[RAW, RAW]),
        case("channels, 300 and 299 by differences", &two(&[(301, 8)], &[(300, 8)]), &[STEPS, STEPS]),
        case("channels, none and 0", &two(&[], &[(0, -9), (1, 8)]), &[RAW, RAW]),
        case("channels, none and 511", &two(&[(511, 7)], &[(511, 8)]), &[RAW, RAW]),
        case("channels, none and 510 by a difference", &two(&[(511, 7)], &[(511, 8)]), &[STEPS, STEPS]),
        case("channels, of 6 bits and 4", &woven(&[8, 8, 0], &[0, 8, 8]), &[wide, RAW]),
        case("channels, raw and differences", &woven(&[0, 7, 0], &[7, 0, 9]), &[RAW, STEPS]),
    ]
}

/// The place is counted in the block, and between two groups no difference is stored.
fn of_groups() -> Vec<Reencoding> {
    let [left, right] = [(512, 8), (400, 8)].map(|other| zeros_but(514, &[other]));
    vec![
        case("groups, 1 of the second", &zeros_but(514, &[(513, 8)]), &[RAW]),
        case("groups, 0 of the second by a difference", &zeros_but(515, &[(513, 8), (514, 8)]), &[STEPS]),
        case("groups, 400 of the first and 0 of the second", &zeros_but(514, &[(400, 8), (512, -9)]), &[RAW]),
        case("groups, the second channel of the first, the first of the second", &woven(&left, &right), &[RAW, RAW]),
        case("groups, a difference between two", &[[0; 512], [1_000; 512]].concat(), &[STEPS]),
    ]
}

/// 36 is told before whatever is wrong with the next block. The second block begins at byte 400.
fn of_what_is_behind() -> Vec<Reencoding> {
    let sets = [("a signature", 400, 1, 0), ("bits 33", 408, 2, 33), ("bits 1", 408, 2, 1), ("flags 2", 410, 2, 2)];
    let behind = |(name, at, count, value): (&str, usize, usize, u64)| {
        let mut case = case(&format!("behind it {name}"), &woven(&[0, 8, 0], &[8, 0, 0]), &[RAW, RAW]);
        put(&mut case.template, at, count, value);
        case
    };
    sets.map(behind).into()
}

/// In each width up to 24 the highest and the lowest that fit, and then one that doesn't. Raw, 24 bits hold every sample; differences of bits 1 are
/// refused by 44.
fn of_widths() -> Vec<Reencoding> {
    let values = |width: u32| {
        let [highest, lowest, beyond] = limits(width);
        let samples = [highest, lowest, beyond, 0];
        with(&format!("misfit, a value of {width} bits"), samples, &one_block(4, raw(width, &[])))
    };
    let steps = |width: u32| {
        let [highest, lowest, beyond] = limits(width);
        let samples = [0, highest, highest + lowest, highest + lowest + beyond];
        with(&format!("misfit, a difference of {width} bits"), samples, &one_block(4, differences(0, width, &[])))
    };
    (1..=23).map(values).chain((2..=24).map(steps)).chain((25..=31).map(of_wide_steps)).collect()
}

fn limits(width: u32) -> [i32; 3] {
    let [highest, lowest, above, below] = edges_of(width as u16).map(|edge| edge as i32);
    [highest, lowest, if width % 2 == 0 { above } else { below }]
}

/// No two samples of 24 bits are so far apart; but the first padded one may be.
fn of_wide_steps(width: u32) -> Reencoding {
    let template = one_block(2, differences(i32::MIN, width, &[]));
    with(&format!("misfit, a difference of {width} bits"), [-8_388_608, 8_388_607], &template)
}

/// 24 bits.
fn one_block(frames: u32, block: Block) -> File {
    file(1, 24, frames, vec![vec![block]])
}
