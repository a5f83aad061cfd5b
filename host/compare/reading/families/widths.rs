//! Every width, depth and count of channels, with frames around each limit; and the most channels there can be.
use super::Part;
use crate::blocks::{filled, flagged};
use crate::faults::{put, set_end};
use crate::files::{Block, File, Places};
use crate::random::Random;

pub const DEPTHS: [u16; 4] = [8, 16, 24, 32];
const FRAMES: [u32; 7] = [0, 1, 511, 512, 513, 1024, 1025];
const CHANNELS: usize = 8;
const BITS_WORDS: usize = 65;

/// Stereo stands twice, the second time as mid/side.
pub fn all() -> Vec<Part> {
    let count = BITS_WORDS * DEPTHS.len() * (CHANNELS + 1) * FRAMES.len();
    vec![Part::new(count, |index| {
        let (bits, k) = ((index % BITS_WORDS) as i16 - 32, index / BITS_WORDS);
        let (depth, k) = (DEPTHS[k % 4], k / 4);
        let (frames, kind) = (FRAMES[k % 7], k / 7);
        let (channels, flags) = if kind == CHANNELS { (2, 1) } else { (kind as u16 + 1, 0) };
        let random = &mut Random::new(index as u64);
        File { depth, ..filled(channels, frames, || flagged(flags, any_values(bits, depth, random))) }.bytes()
    })]
}

/// A block with any values at all.
pub fn any_values(bits: i16, depth: u16, random: &mut Random) -> Block {
    let width = if bits == 0 { depth } else { bits.unsigned_abs() };
    let run = (0..8 * width).flat_map(|_| random.next().to_le_bytes()).collect();
    Block { base: random.signed(32), bits, flags: 0, padding: random.next() as u32, run }
}

const MOST_CHANNELS: u16 = u16::MAX;

type Fault = fn(&mut [u8], &Places);

/// Where the last block begins.
fn last(places: &Places) -> usize {
    places.blocks[0][usize::from(MOST_CHANNELS) - 1]
}

const FAULTS: [Fault; 8] = [
    |_, _| (),
    |bytes, places| put(bytes, last(places), 1, 0),
    |bytes, places| put(bytes, last(places) + 8, 2, 33),
    |bytes, places| put(bytes, last(places) + 8, 2, 2),
    |bytes, places| put(bytes, last(places) + 10, 2, 2),
    |bytes, places| put(bytes, places.start + 10, 2, 1),
    |bytes, places| set_end(bytes, places, places.size + 1),
    |bytes, places| set_end(bytes, places, places.size - 1),
];

/// 65,535 channels of width 1: two files without a fault, and one with each.
pub fn many() -> Vec<Part> {
    vec![Part::new(FAULTS.len() + 1, |k| {
        let random = &mut Random::new(k as u64);
        let mut file = filled(MOST_CHANNELS, 1 + k as u32 % 2, || any_values(1 - 2 * (k as i16 % 2), 16, random));
        file.tail = vec![7; 20];
        let mut bytes = file.bytes();
        FAULTS[k % FAULTS.len()](&mut bytes, &file.places());
        bytes
    })]
}
