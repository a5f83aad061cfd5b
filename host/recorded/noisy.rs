//! Blocks of any values, packed in words that the list can draw.
use crate::blocks::differences;
use crate::draw::{seed, Draw};
use crate::files::{packed, Block};
use crate::random::Random;

/// The values given, packed, and after them any others.
pub fn begun_run(values: &[i32], width: u32, random: &mut Random) -> Vec<u8> {
    let mut run = Draw::noise(seed(random)).bytes(16 * width as usize);
    let (bits, given) = (values.len() * width as usize, packed(values, width));
    run[..bits / 8].copy_from_slice(&given[..bits / 8]);
    if bits % 8 > 0 {
        let mask = (1 << (bits % 8)) - 1;
        run[bits / 8] = run[bits / 8] & !mask | given[bits / 8] & mask;
    }
    run
}

pub fn noisy(width: u32, random: &mut Random) -> Block {
    Block { base: random.signed(32), run: begun_run(&[], width, random), ..differences(0, width, &[]) }
}

pub fn noisy_raw(width: u32, random: &mut Random) -> Block {
    Block { base: 0, bits: -(width as i16), ..noisy(width, random) }
}

pub fn noisy_at_depth(depth: u16, random: &mut Random) -> Block {
    Block { bits: 0, ..noisy_raw(depth.into(), random) }
}
