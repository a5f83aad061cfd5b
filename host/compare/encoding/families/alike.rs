//! Two channels that are the same, among others: as mid and side they would take less, and of two channels alone they are so taken.
use super::{Call, Part, ALL_DEPTHS, MODES, MOST_CHANNELS};
use crate::picks::Picks;
use crate::random::Random;

/// How many channels there are, and which two are the same.
type Pair = (u16, u16, u16);

const FRAMES: [usize; 3] = [3, 512, 700];

/// What the other channels have: zeros, numbers of their own, or the same too.
const OTHERS: usize = 3;

pub fn all() -> Part {
    let of = |channels| (0..channels).flat_map(move |other| (0..other).map(move |one| (channels, one, other)));
    let pairs: Vec<Pair> = (2..=MOST_CHANNELS).flat_map(of).collect();
    Part::new(pairs.len() * FRAMES.len() * OTHERS * MODES.len() * ALL_DEPTHS.len(), move |k| {
        let picks = &mut Picks(k);
        let (pair, frames, others) = (picks.pick(&pairs), picks.pick(&FRAMES), picks.below(OTHERS));
        let (mode, depth) = (picks.pick(&MODES), picks.pick(&ALL_DEPTHS));
        let random = &mut Random::new(k as u64);
        let samples: Vec<i32> = (0..frames).flat_map(|_| frame(pair, others, depth, random)).collect();
        Call::new(&samples, pair.0, depth, mode)
    })
}

fn frame((channels, one, other): Pair, others: usize, depth: u16, random: &mut Random) -> Vec<i32> {
    let same = random.signed(depth.into());
    let sample = |channel| match others {
        _ if channel == one || channel == other => same,
        0 => 0,
        1 => random.signed(depth.into()),
        _ => same,
    };
    (0..channels).map(sample).collect()
}
