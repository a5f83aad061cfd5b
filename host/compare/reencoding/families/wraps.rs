//! Pairs that are stored 2^31 away, padded samples far from all others, and bases of difference blocks that are not the samples'.
use super::templates::Template;
use super::{Call, Part};
use crate::asking::{ask, Answer, Question};
use crate::blocks::{differences, file, flagged, raw};
use crate::files::{Block, File};
use crate::picks::Picks;
use crate::random::Random;
use crate::samples::limits;
use crate::writing::DEPTHS;

const FAR: i32 = i32::MIN;

/// Mids and sides.
const NUMBERS: [i32; 8] = [0, 1, -1, -4_000, 16_383, -16_384, 4_194_303, -4_194_304];

type Coding = fn(i32, i32) -> Block;

/// A value, then another for the rest of the block. In 31 bits nothing is 2^31 away.
const CODINGS: [Coding; 4] = [
    |first, rest| raw(32, &with_rest(first, rest)),
    |first, rest| differences(first, 32, &[rest.wrapping_sub(first)]),
    |first, rest| raw(31, &with_rest(first, rest)),
    |first, rest| differences(first, 31, &[rest.wrapping_sub(first)]),
];

fn with_rest(first: i32, rest: i32) -> Vec<i32> {
    let mut values = vec![rest; 512];
    values[0] = first;
    values
}

/// Mid and side of the first frame, or of all frames and the padded ones too, are where they should be, or 2^31 away, both or one of them. The samples
/// are those that the original reads, or, where one alone is away, those without it.
pub fn pairs() -> Part {
    let n = NUMBERS.len();
    Part::new(n * n * CODINGS.len() * CODINGS.len() * 4 * 2 * 2 * DEPTHS.len(), |k| {
        let picks = &mut Picks(k);
        let (mid, side) = (picks.pick(&NUMBERS), picks.pick(&NUMBERS));
        let (one, other, away, all) = (picks.pick(&CODINGS), picks.pick(&CODINGS), picks.below(4), picks.below(2) == 1);
        let (frames, depth) = (picks.pick(&[1, 2]), picks.pick(&DEPTHS));
        let block = |coding: Coding, number: i32, away: bool| {
            let [first, rest] = [away, away && all].map(|away| if away { number ^ FAR } else { number });
            flagged(1, coding(first, rest))
        };
        let file =
            file(2, depth, frames, vec![vec![block(one, mid, away & 1 == 1), block(other, side, away & 2 == 2)]]);
        match away {
            0 | 3 => read(file),
            _ => Template::with(file, [mid + side, mid - side].repeat(frames as usize)).call(),
        }
    })
}

/// With the samples that the original reads.
fn read(file: File) -> Call {
    match ask(&Question::Decode(file.bytes())) {
        Answer::Samples(samples) => Template::with(file, samples).call(),
        _ => panic!("it can be read"),
    }
}

// ---- padded samples

const FRAMES: [usize; 5] = [1, 2, 511, 512, 513];

/// The base, from which padded samples follow, at every limit and one beside it, by width; the samples at the limits of their depth.
pub fn bases() -> Part {
    Part::new(BASES * 32 * FRAMES.len() * 2 * DEPTHS.len(), |k| {
        let picks = &mut Picks(k);
        let (base, width, frames) = (picks.below(BASES), 1 + picks.below(32) as i16, picks.pick(&FRAMES));
        let (high, depth) = (picks.below(2) == 1, picks.pick(&DEPTHS));
        let mut template = Template::of(depth, frames, &[(width, 0)], &mut Random::new(k as u64));
        let sample = if high { limits(depth).1 } else { limits(depth).0 };
        template.file.groups.iter_mut().flatten().for_each(|block| {
            block.base = base_of(base, width as u32, sample);
            block.run.fill(0);
        });
        template.call_with(&vec![sample; frames])
    })
}

const BASES: usize = 12;

fn base_of(base: usize, width: u32, sample: i32) -> i32 {
    let edge = 1_i32.wrapping_shl(width - 1);
    let near = [0, edge, edge.wrapping_sub(1), edge.wrapping_neg(), edge.wrapping_neg().wrapping_sub(1), 1, -1];
    match near.get(base) {
        Some(step) => sample.wrapping_add(*step),
        None => [0, i32::MIN, i32::MAX, i32::MIN + 1, !sample][base - near.len()],
    }
}
