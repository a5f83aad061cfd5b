//! Every number of channels with every depth.
use super::{Call, Part};
use crate::picks::Picks;
use crate::writing::RATE;

/// Of those beyond some have an accepted number in their lower bits.
const CHANNELS_BEYOND: [u16; 4] = [257, 264, 4_096, u16::MAX];
const DEPTHS_BEYOND: [u16; 7] = [64, 264, 272, 280, 288, 32_768, u16::MAX];

/// Whole frames, and how many samples are left out of the last.
const LENGTHS: [(usize, usize); 8] = [(0, 0), (1, 0), (1, 1), (3, 1), (511, 0), (512, 0), (513, 0), (1_025, 0)];

pub fn all() -> Part {
    let channels: Vec<u16> = (0..=10).chain(CHANNELS_BEYOND).collect();
    let depths: Vec<u16> = (0..=40).chain(DEPTHS_BEYOND).collect();
    let (modes, rates) = ([0, 1, 2, 3], [RATE, 0]);
    Part::new(channels.len() * depths.len() * LENGTHS.len() * modes.len() * rates.len(), move |k| {
        let picks = &mut Picks(k);
        let (channels, depth, (frames, less)) = (picks.pick(&channels), picks.pick(&depths), picks.pick(&LENGTHS));
        let samples = even(frames, channels.min(10).into());
        let (mode, rate) = (picks.pick(&modes), picks.pick(&rates));
        Call { rate, ..Call::new(&samples[..samples.len().saturating_sub(less)], channels, depth, mode) }
    })
}

/// Even numbers of 7 bits, others in each channel.
fn even(frames: usize, channels: usize) -> Vec<i32> {
    let sample = |frame: usize, channel: usize| 2 * ((7 * frame + 5 * channel) % 60) as i32 - 60;
    (0..frames).flat_map(|frame| (0..channels).map(move |channel| sample(frame, channel))).collect()
}
