//! Files without damage of every form: all ranges that begin and end near a border of groups, and numbers at the limits of 32 bits.
use super::drawn::with_range;
use super::{Call, Part};
use crate::blocks::{filled, flagged};
use crate::files::File;
use crate::picks::Picks;
use crate::random::Random;
use crate::reading::families::{any_values, DEPTHS};
use std::collections::BTreeSet;

const FRAMES: [u32; 11] = [0, 1, 2, 511, 512, 513, 1_023, 1_024, 1_025, 1_536, 1_600];

/// Channels, and the flags of the first block of each group: stereo stands twice, the second time as mid/side, and all of them as float files too.
const FORMS: [(u16, u16); 10] = [(1, 0), (2, 0), (2, 1), (3, 0), (8, 0), (1, 2), (2, 2), (2, 3), (3, 2), (8, 2)];

/// Bits words of so many kinds: narrow and wide differences, narrow and wide raw ones, the depth's.
const BITS: [[i16; 2]; 5] = [[1, 4], [5, 32], [-4, -1], [-32, -5], [0, 0]];

fn of_form(frames: u32, picks: &mut Picks) -> File {
    let ((channels, flags), [low, high], depth) = (picks.pick(&FORMS), picks.pick(&BITS), picks.pick(&DEPTHS));
    let random = &mut Random::new(frames as u64 + u64::from(flags));
    let block = || {
        let bits = random.between(low.into(), high.into()) as i16;
        flagged(flags, any_values(bits, depth, random))
    };
    File { depth, ..filled(channels, frames, block) }
}

const EACH: usize = FORMS.len() * BITS.len() * DEPTHS.len();

pub fn all() -> Vec<Part> {
    let of = |frames: u32| {
        let ranges = near_borders(frames);
        Part::new(EACH * ranges.len(), move |k| {
            let (first, count) = ranges[k % ranges.len()];
            Call { file: of_form(frames, &mut Picks(k / ranges.len())).bytes(), first, count }
        })
    };
    FRAMES.map(of).into()
}

/// First frame and count.
fn near_borders(frames: u32) -> Vec<(u32, u32)> {
    let borders = (0..=frames / 512).map(|k| 512 * k).chain([frames]);
    let near = BTreeSet::from_iter(borders.flat_map(|at| [at.saturating_sub(1), at, at + 1]));
    let pairs = near.iter().flat_map(|first| near.range(first..).map(move |end| (*first, end - first)));
    pairs.collect()
}

/// Numbers of 32 bits whose sums are near 2^32, near the frames, or small.
pub fn sums() -> Vec<Part> {
    let of = |frames: u32| {
        let near = [0, 512, frames, 1 << 31, u32::MAX - frames, u32::MAX]
            .map(|n: u32| [n.wrapping_sub(1), n, n.wrapping_add(1)]);
        let numbers = Vec::from_iter(BTreeSet::from_iter(near.concat()));
        let n = numbers.len();
        Part::new(n * n * FORMS.len(), move |k| {
            let file = of_form(frames, &mut Picks(k / (n * n))).bytes();
            Call { file, first: numbers[k % n], count: numbers[k / n % n] }
        })
    };
    FRAMES.map(of).into()
}

/// Whose samples are more than one piece of the crate has.
const LONGER: u32 = 40_000;

/// No frames of files of eight channels: all pieces are asked for then.
pub fn pieces() -> Vec<Part> {
    let file = |k: usize| {
        let random = &mut Random::new(k as u64);
        let (flags, depth) = ([0, 2][k % 2], DEPTHS[k / 2]);
        File { depth, ..filled(8, LONGER, || flagged(flags, any_values(4, depth, random))) }
    };
    vec![Part::new(2 * DEPTHS.len(), move |k| Call { file: file(k).bytes(), first: 0, count: 0 })]
}

const LONG: u32 = 20_500;
const OF_LONG: usize = 60;

/// Any ranges of files of 41 groups.
pub fn long() -> Vec<Part> {
    let file = |k: usize| of_form(LONG, &mut Picks(k / OF_LONG)).bytes();
    vec![Part::new(FORMS.len() * BITS.len() * OF_LONG, move |k| with_range(file(k), k as u64))]
}
