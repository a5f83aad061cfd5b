//! All settings, and few samples.
use crate::lent::as_bytes;
use crate::picks::Picks;

/// Of those beyond some have an accepted number in their lower bits.
const ANY_CHANNELS: [u16; 8] = [0, 1, 2, 3, 4, 257, 258, 65_535];
const DEPTHS_BEYOND: [u16; 10] = [48, 64, 255, 256, 272, 280, 4_112, 32_768, 32_784, 65_535];
const RATES: [u32; 4] = [0, 1, 44_100, u32::MAX];

/// How many settings there are.
pub const SETTINGS: usize = ANY_CHANNELS.len() * (41 + DEPTHS_BEYOND.len()) * RATES.len();

/// Channels, depth, rate.
pub fn settings(picks: &mut Picks) -> (u16, u16, u32) {
    let depths: Vec<u16> = (0..=40).chain(DEPTHS_BEYOND).collect();
    (picks.pick(&ANY_CHANNELS), picks.pick(&depths), picks.pick(&RATES))
}

/// Empty, whole and half frames, equal and other parity, a value outside 16 bits and one outside 24.
const FEW: [&[i32]; 8] = [&[], &[5], &[3, 5], &[3, 4], &[1, 2, 3], &[40_000, 2], &[7, i32::MAX], &[i32::MIN]];

/// How many short lists there are: every one whole, and without the last byte.
pub const LISTS: usize = 2 * FEW.len();

pub fn few(picks: &mut Picks) -> Vec<u8> {
    let mut bytes = as_bytes(picks.pick(&FEW));
    bytes.truncate(bytes.len().saturating_sub(picks.below(2)));
    bytes
}

const LENGTHS: usize = 42 + 7 + 7;
const BYTES: [u8; 3] = [0x00, 0x7F, 0xFF];

/// How many lists of bytes there are that may end within a sample.
pub const RAGGED: usize = LENGTHS * BYTES.len();

/// Every short length, and those about a whole group.
pub fn ragged(picks: &mut Picks) -> Vec<u8> {
    let lengths: Vec<usize> = (0..=41).chain(2045..=2051).chain(4093..=4099).collect();
    let length = picks.pick(&lengths);
    vec![picks.pick(&BYTES); length]
}
