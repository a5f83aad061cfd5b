//! Eight channels of 32 bits, which the original refuses by 30.
use super::call::{Call, Operation, Tally};
use super::large::Large;
use super::{AUTO, EMPTY, MID_SIDE, TOO_MANY};
use crate::input::Difference;
use crate::random::Random;

const CHANNELS: usize = 8;
const DEPTH: u16 = 32;

/// How many groups of raw blocks have a size of 32 bits. They leave 14,463 bytes: one too few for eight blocks of width 28.
const RAW_GROUPS: usize = u32::MAX as usize / (CHANNELS * (16 + 64 * DEPTH as usize));

fn noise(frames: usize) -> Large {
    let mut random = Random::new(2);
    Large::new(CHANNELS * frames, || random.signed(DEPTH.into()))
}

fn call<'a>(operation: Operation<'a>, noise: &'a Large, frames: usize, kind: &'a str, number: u32) -> Call<'a> {
    Call { operation, channels: CHANNELS as u16, depth: DEPTH, samples: noise.first(CHANNELS * frames), kind, number }
}

/// 30 of re-encoding, and of a channel more. 37 with data of 2^32 bytes, 50 with 64 bytes less: the last group has two
/// frames, with a step of width 28 in each channel but the last.
pub fn size(tally: &mut Tally) -> Result<(), Difference> {
    let (frames, step) = (512 * RAW_GROUPS + 2, |width: u32| 1 << (width - 2));
    let mut noise = noise(frames);
    call(EMPTY, &noise, frames, "noise", 30).check(tally)?;
    Call { channels: CHANNELS as u16 + 1, ..call(AUTO, &noise, frames, "noise", 30) }.check(tally)?;
    for k in 0..CHANNELS {
        noise.put(CHANNELS * (frames - 2) + k, 0);
        noise.put(CHANNELS * (frames - 1) + k, step(28));
    }
    for (width, number) in [(27, 50), (28, 37)] {
        noise.put(CHANNELS * frames - 1, step(width));
        let kind = &format!("noise, the last block of width {width}");
        call(AUTO, &noise, frames, kind, number).check_ours(tally)?;
    }
    Ok(())
}

/// 33 comes before 34.
pub fn frames(tally: &mut Tally) -> Result<(), Difference> {
    call(MID_SIDE, &noise(TOO_MANY), TOO_MANY, "noise", 33).check_ours(tally)
}
