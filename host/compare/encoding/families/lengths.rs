//! Every short length, and those about whole groups.
use super::{Call, Format, Part, MODES};
use crate::picks::Picks;
use crate::random::Random;
use crate::writing::lists::by_groups;

const FRAMES: [usize; 12] = [511, 512, 513, 1_023, 1_024, 1_025, 1_535, 1_536, 1_537, 2_047, 2_048, 2_049];

/// Up to so many samples; and so many drawings of each number of frames.
pub fn all(formats: &[Format], longest: usize, drawings: usize) -> Vec<Part> {
    vec![short(formats.to_vec(), longest + 1), long(formats.to_vec(), drawings)]
}

fn short(formats: Vec<Format>, lengths: usize) -> Part {
    Part::new(lengths * formats.len() * MODES.len(), move |k| {
        let picks = &mut Picks(k);
        let (length, format) = (picks.below(lengths), picks.pick(&formats));
        let mut call = drawn(format, length.div_ceil(format.0.into()), picks, k);
        call.samples.truncate(4 * length);
        call
    })
}

fn long(formats: Vec<Format>, drawings: usize) -> Part {
    Part::new(FRAMES.len() * drawings * formats.len() * MODES.len(), move |k| {
        let picks = &mut Picks(k);
        let (frames, format) = (picks.pick(&FRAMES), picks.pick(&formats));
        drawn(format, frames, picks, k)
    })
}

fn drawn((channels, depth): Format, frames: usize, picks: &mut Picks, seed: usize) -> Call {
    let samples = by_groups(channels, depth, frames, &mut Random::new(seed as u64));
    Call::new(&samples, channels, depth, picks.pick(&MODES))
}
