//! One or two damages in any blocks of four groups, and ranges that touch some of them.
use super::{Call, Part};
use crate::picks::Picks;
use crate::reading::families::places;

/// Of files of 1,600 frames.
const RANGES: [(u32, u32); 23] = [
    (0, 0),
    (0, 1),
    (0, 512),
    (0, 513),
    (511, 1),
    (511, 2),
    (512, 0),
    (512, 1),
    (512, 512),
    (600, 0),
    (600, 3),
    (1_023, 1),
    (1_023, 2),
    (1_024, 512),
    (1_024, 513),
    (1_535, 1),
    (1_535, 2),
    (1_536, 64),
    (1_599, 1),
    (1_600, 0),
    (0, 1_600),
    (1_600, 1),
    (1, u32::MAX),
];

pub fn all() -> Vec<Part> {
    let of = |channels: u16| {
        Part::new(places::count(channels) * RANGES.len(), move |k| {
            let (first, count) = RANGES[k % RANGES.len()];
            Call { file: places::with_two(channels, &mut Picks(k / RANGES.len())), first, count }
        })
    };
    places::CHANNELS.map(of).into()
}
