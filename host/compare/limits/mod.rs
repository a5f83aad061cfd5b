//! Calls with more samples than memory holds: 33 and 37, each from both sides of its limit.
mod call;
mod eight;
mod large;

use crate::input::Difference;
use crate::random::Random;
use crate::report::print;
use crate::writing::RATE;
use call::{Call, Operation, Tally};
use large::Large;
use std::time::Instant;

/// The most frames that there may be, and one more.
const MOST: usize = u32::MAX as usize;
const TOO_MANY: usize = MOST + 1;

const DEPTH: u16 = 24;

const AUTO: Operation = Operation::Encode(0);
const MID_SIDE: Operation = Operation::Encode(2);
const EMPTY: Operation = Operation::Reencode(&[]);

/// How many raw blocks have a size of 32 bits. They leave 1,295 bytes: enough for a block of width 19, and one
/// too few for width 20.
const RAW_BLOCKS: usize = u32::MAX as usize / (16 + 64 * DEPTH as usize);

/// Whether both sides are the same on all the calls. After a difference there is no other call.
pub fn run() -> bool {
    let begun = Instant::now();
    let mut tally = Tally::default();
    let found = all(&mut tally).err();
    if let Some(difference) = &found {
        println!("a difference");
        print(difference);
    }
    println!("{} calls of ours, {} s", tally.calls, begun.elapsed().as_secs());
    println!("{} differences", found.iter().count());
    found.is_none()
}

/// At 24 bits.
fn call<'a>(operation: Operation<'a>, channels: u16, samples: &'a [i32], kind: &'a str, number: u32) -> Call<'a> {
    Call { operation, channels, depth: DEPTH, samples, kind, number }
}

/// The noise is even, so that there is mid/side.
fn all(tally: &mut Tally) -> Result<(), Difference> {
    eight::size(tally)?;
    let mut random = Random::new(1);
    let mut noise = Large::new(2 * TOO_MANY, || 2 * random.signed(u32::from(DEPTH) - 1));
    frames(&mut noise, tally)?;
    value(&mut noise, tally)?;
    size(&mut noise, tally)?;
    most(&mut noise, tally)?;
    let silence = Large::new(MOST, || 0);
    call(AUTO, 1, silence.first(MOST), "silence", 50).check_ours(tally)?;
    eight::frames(tally)
}

/// 33, and what comes after it. An original whose limit is too high differs in the first call, and takes no memory.
fn frames(noise: &mut Large, tally: &mut Tally) -> Result<(), Difference> {
    let spec = ncw::PcmSpec { channels: 2, bits_per_sample: DEPTH, sample_rate: RATE };
    let without = ncw::encode_pcm(&[], spec, ncw::StereoMode::Auto).expect("the shortest file");
    let without_frames = Operation::Reencode(&without);
    noise.put(0, 1);
    for (operation, channels, frames, number) in [
        (MID_SIDE, 1, TOO_MANY, 33),
        (MID_SIDE, 1, MOST, 34),
        (MID_SIDE, 2, TOO_MANY, 33),
        (MID_SIDE, 2, MOST, 35),
        (AUTO, 1, TOO_MANY, 33),
        (EMPTY, 1, TOO_MANY, 33),
        (EMPTY, 1, MOST, 1),
        (without_frames, 2, TOO_MANY, 33),
        (without_frames, 2, MOST, 40),
    ] {
        let samples = noise.first(frames * usize::from(channels));
        call(operation, channels, samples, "noise, the first sample odd", number).check(tally)?;
    }
    noise.put(0, 0);
    Ok(())
}

/// 32 comes before 33.
fn value(noise: &mut Large, tally: &mut Tally) -> Result<(), Difference> {
    noise.put(TOO_MANY - 1, 1 << (DEPTH - 1));
    for operation in [AUTO, EMPTY] {
        call(operation, 1, noise.first(TOO_MANY), "noise, the last sample outside", 32).check(tally)?;
    }
    noise.put(TOO_MANY - 1, 0);
    Ok(())
}

/// 37 with data of 2^32 bytes, 50 with 64 bytes less.
fn size(noise: &mut Large, tally: &mut Tally) -> Result<(), Difference> {
    let frames = 512 * RAW_BLOCKS + 2;
    noise.put(frames - 2, 0);
    for (width, number) in [(19, 50), (20, 37)] {
        noise.put(frames - 1, 1 << (width - 2));
        let kind = &format!("noise, the last block of width {width}");
        call(AUTO, 1, noise.first(frames), kind, number).check_ours(tally)?;
    }
    Ok(())
}

/// 35 comes before 37.
fn most(noise: &mut Large, tally: &mut Tally) -> Result<(), Difference> {
    call(AUTO, 1, noise.first(MOST), "noise", 37).check_ours(tally)?;
    for (last, kind, number) in [(0, "noise", 37), (1, "noise, the last sample odd", 35)] {
        noise.put(2 * MOST - 1, last);
        call(MID_SIDE, 2, noise.first(2 * MOST), kind, number).check_ours(tally)?;
    }
    Ok(())
}
