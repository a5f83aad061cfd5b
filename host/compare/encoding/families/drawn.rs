//! Random calls, most of them short and without a fault.
use super::{Call, Format, Part, ALL_DEPTHS, MOST_CHANNELS};
use crate::random::Random;
use crate::writing::lists::by_groups;
use crate::writing::{Sampled, DEPTHS};

/// One call of so many has a fault.
const ONE_WITH_A_FAULT: usize = 12;

/// Every other one has any of the formats, and not only those of the original.
pub fn random(count: usize, seed: u64) -> Part {
    Part::new(count, move |k| {
        let number = seed.wrapping_add(k as u64);
        let random = &mut Random::new(number);
        let mut call = if number % 2 == 0 { of_original(random) } else { of_document_02(random) };
        if random.once_in(ONE_WITH_A_FAULT) {
            spoil(&mut call, random);
        }
        call
    })
}

fn of_original(random: &mut Random) -> Call {
    let format = (random.pick(&[1, 2, 2, 2]), random.pick(&DEPTHS));
    call(format, 1_600, random)
}

/// Half of those of 32 bits are turned.
fn of_document_02(random: &mut Random) -> Call {
    let any = 1 + random.below(MOST_CHANNELS.into()) as u16;
    let (channels, depth) = (random.pick(&[2, any, any]), random.pick(&ALL_DEPTHS));
    let call = call((channels, depth), 4_000, random);
    match depth == 32 && random.once_in(2) {
        true => turned(&call, random.signed(32)),
        false => call,
    }
}

fn call((channels, depth): Format, longest: usize, random: &mut Random) -> Call {
    let frames = match random.below(24) {
        0 => random.pick(&[0, 511, 512, 513, 1_024, 1_025, 1_536, 1_537]),
        1 => random.below(longest),
        2..6 => random.below(512),
        _ => random.below(30),
    };
    let mode = if channels == 2 { random.pick(&[0, 0, 0, 1, 2, 2]) } else { random.pick(&[0, 0, 0, 1, 1, 2]) };
    let samples = by_groups(channels, depth, frames, random);
    Call { rate: random.pick(&[1, 44_100, 48_000, u32::MAX]), ..Call::new(&samples, channels, depth, mode) }
}

/// Every sample further by the same, and around at the end of 32 bits: differences are the same once they wrap.
fn turned(call: &Call, by: i32) -> Call {
    let samples = call.numbers().unwrap_or_default();
    call.with(&samples.iter().map(|sample| sample.wrapping_add(by)).collect::<Vec<_>>())
}

/// One thing or another that is refused, mostly.
fn spoil(call: &mut Call, random: &mut Random) {
    let n = call.samples.len();
    match random.below(7) {
        0 => call.channels = random.pick(&[0, 3, 9, 65_535]),
        1 => call.depth = random.pick(&[0, 8, 15, 17, 32, 33, 65_535]),
        2 => call.rate = 0,
        3 => call.mode = random.pick(&[3, 4, u32::MAX]),
        4 => call.samples.truncate(n.saturating_sub(1 + random.below(3))),
        5 => call.samples.truncate(n.saturating_sub(4)),
        // The highest byte of a sample.
        _ if n > 0 => call.samples[random.below(n / 4) * 4 + 3] = random.pick(&[0x7F, 0x80, 1]),
        _ => (),
    }
}
