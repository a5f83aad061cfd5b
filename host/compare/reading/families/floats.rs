//! Floats: every pair of special patterns, as mid and side and as left and right, in each coding; and drawn pairs.
use super::Part;
use crate::blocks::{at_depth, differences, file, flagged, noise, raw};
use crate::files::Block;
use crate::random::Random;

/// Zeros, subnormals, numbers whose sums round, the greatest, infinities, NaNs of both kinds with payloads; with either sign.
fn patterns() -> Vec<i32> {
    let numbers = [0.1, 1.0, 1.000_000_1, 0.333_333_34, 16_777_216.0, 16_777_218.0, 2.0e38, 3.0e-39, 1.2e-38_f32];
    let edges = [0, 1, 0x007F_FFFF, 0x0080_0000, 0x0080_0001, 0x7F7F_FFFF, 0x7F00_0000, 0x7F80_0000];
    let nans = [0x7F80_0001, 0x7FBF_FFFF, 0x7FC0_0000, 0x7FC1_2345, 0x7FFF_FFFF];
    let all = numbers.map(f32::to_bits).into_iter().chain(edges).chain(nans);
    all.flat_map(|bits| [bits, bits | 1 << 31]).map(|bits| bits as i32).collect()
}

type Coding = fn(i32, i32) -> Block;

/// The two patterns as the first samples of a block.
const CODINGS: [Coding; 3] =
    [|a, b| raw(32, &[a, b]), |a, b| at_depth(32, &[a, b]), |a, b| differences(a, 32, &[b.wrapping_sub(a)])];

pub fn all() -> Vec<Part> {
    vec![pairs(), drawn_pairs(), at_every_depth()]
}

/// The pair and the same turned round, by coding, direct and as mid/side.
fn pairs() -> Part {
    let patterns = patterns();
    let n = patterns.len();
    Part::new(n * n * CODINGS.len() * 2, move |k| {
        let (mid, side) = (patterns[k % n], patterns[k / n % n]);
        let (coding, flags) = (CODINGS[k / (n * n) % CODINGS.len()], 2 + (k / (n * n) / CODINGS.len()) as u16);
        file(2, 32, 2, vec![vec![flagged(flags, coding(mid, side)), flagged(2, coding(side, mid))]]).bytes()
    })
}

/// A group of drawn pairs as mid/side, raw.
fn drawn_pairs() -> Part {
    Part::new(2_000, |k| {
        let random = &mut Random::new(k as u64);
        let mut block = |flags| flagged(flags, raw(32, &(0..512).map(|_| word(random)).collect::<Vec<_>>()));
        file(2, 32, 512, vec![vec![block(3), block(2)]]).bytes()
    })
}

/// Any bits, or a NaN with any payload (by chance an infinity), or zero, 1.0, the greatest number, infinity, the least
/// NaN of either kind; with either sign.
fn word(random: &mut Random) -> i32 {
    let bits = random.signed(32);
    match random.below(4) {
        0 | 1 => bits,
        2 => bits | 0x7F80_0000,
        _ => bits & i32::MIN | random.pick(&[0, 0x3F80_0000, 0x7F7F_FFFF, 0x7F80_0000, 0x7F80_0001, 0x7FC0_0000]),
    }
}

/// Bits 0, direct and as mid/side: at a depth under 32 the pattern is what the sign makes of it.
fn at_every_depth() -> Part {
    Part::new(4 * 2 * 25, |k| {
        let (depth, flags) = ([8, 16, 24, 32][k % 4], 2 + (k / 4 % 2) as u16);
        let random = &mut Random::new(k as u64);
        let mut block = |flags| flagged(flags, at_depth(depth, &noise(depth.into(), random)));
        file(2, depth, 500, vec![vec![block(flags), block(2)]]).bytes()
    })
}
