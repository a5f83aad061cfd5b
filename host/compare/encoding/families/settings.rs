//! All settings with few samples, sample bytes that end too soon, and values at the limits of a depth.
use super::{Call, Format, Part, MODES};
use crate::picks::Picks;
use crate::random::Random;
use crate::samples::limits as limits_of;
use crate::writing::settings::{few, ragged as ragged_bytes, settings, LISTS, RAGGED, SETTINGS};

const ANY_MODES: [u32; 8] = [0, 1, 2, 3, 4, 256, 65_537, u32::MAX];

pub fn all() -> Part {
    Part::new(SETTINGS * ANY_MODES.len() * LISTS, |k| {
        let picks = &mut Picks(k);
        let (channels, depth, rate) = settings(picks);
        Call { mode: picks.pick(&ANY_MODES), samples: few(picks), channels, depth, rate }
    })
}

pub fn ragged() -> Part {
    let (channels, depths) = ([0, 1, 2, 3], [8, 16, 24]);
    Part::new(RAGGED * channels.len() * depths.len() * 4, move |k| {
        let picks = &mut Picks(k);
        let (samples, channels, depth) = (ragged_bytes(picks), picks.pick(&channels), picks.pick(&depths));
        Call { samples, ..Call::new(&[], channels, depth, picks.below(4) as u32) }
    })
}

/// Mono has twice as many.
const FRAMES: [usize; 6] = [1, 2, 3, 257, 512, 515];
const PLACES: usize = 3;
const VALUES: usize = 10;

/// One value at a limit of the depth, one inside or one outside, or far outside; the sample beside it the same or not.
pub fn limits(formats: Vec<Format>) -> Part {
    let count = formats.len() * MODES.len() * FRAMES.len() * PLACES * VALUES * 4;
    Part::new(count, move |k| {
        let picks = &mut Picks(k);
        let ((channels, depth), mode) = (picks.pick(&formats), picks.pick(&MODES));
        let (frames, place, value) = (picks.pick(&FRAMES), picks.below(PLACES), picks.below(VALUES));
        let length = frames * usize::from(channels.max(2));
        let at = [0, length / 2, length - 1][place];
        let mut samples = around(length, picks.below(2) == 1);
        samples[at] = values(depth)[value];
        if picks.below(2) == 1 {
            samples[(at ^ 1).min(length - 1)] = samples[at];
        }
        Call::new(&samples, channels, depth, mode)
    })
}

/// Those far outside are inside by their lower bits. What 32 bits have not is the last that they have.
fn values(depth: u16) -> [i32; VALUES] {
    let (low, high) = limits_of(depth);
    let (low, high, whole) = (i64::from(low), i64::from(high), 1 << depth);
    let (least, most) = (i64::from(i32::MIN), i64::from(i32::MAX));
    [low - 1, low, low + 1, high - 1, high, high + 1, low - whole, high + whole, least, most]
        .map(|value| value.clamp(least, most) as i32)
}

/// Zeros, or even numbers without a rule.
fn around(length: usize, noisy: bool) -> Vec<i32> {
    let random = &mut Random::new(length as u64);
    (0..length).map(|_| if noisy { 2 * random.signed(5) } else { 0 }).collect()
}
