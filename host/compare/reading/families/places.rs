//! A fault in any block of four groups, and one in any other: the first by group and channel is to be told.
use super::Part;
use crate::blocks::{filled, noisy};
use crate::faults::put;
use crate::files::{Block, File, Places};
use crate::picks::Picks;
use crate::random::Random;

const GROUPS: usize = 4;
const FRAMES: u32 = 1_600;
pub const CHANNELS: [u16; 3] = [1, 2, 3];

#[derive(Clone, Copy)]
enum Fault {
    /// Of a block, before the file is laid out.
    Laid(fn(&mut Block)),
    /// Of the bytes, for a group and a channel.
    Put(fn(&mut [u8], &Places, usize, usize)),
}

use Fault::*;

const FAULTS: [Fault; 11] = [
    Laid(|block| block.flags ^= 1),
    Laid(|block| block.flags ^= 2),
    Laid(|block| block.bits = 33),
    Laid(|block| block.bits = i16::MIN),
    Laid(|block| block.bits = 32),
    Laid(|block| block.run.push(0x16)),
    Laid(|block| block.run.truncate(127)),
    Laid(|block| block.run.clear()),
    Put(|bytes, places, group, channel| put(bytes, places.blocks[group][channel], 1, 0)),
    Put(|bytes, places, group, _| end_after(bytes, places, group, 80 * places.channels - 1)),
    Put(|bytes, places, group, _| end_after(bytes, places, group, 80 * places.channels)),
];

/// A group ends so many bytes after its beginning, by the entry behind its own.
fn end_after(bytes: &mut [u8], places: &Places, group: usize, length: usize) {
    let begin = places.blocks[group][0] - places.start;
    put(bytes, places.table + 4 * (group + 1), 4, (begin + length) as u64);
}

/// Every ordered pair of a fault and a block.
pub fn all() -> Vec<Part> {
    CHANNELS.map(|channels| Part::new(count(channels), move |k| with_two(channels, &mut Picks(k)))).into()
}

/// How many pairs there are.
pub fn count(channels: u16) -> usize {
    (FAULTS.len() * GROUPS * usize::from(channels)).pow(2)
}

pub fn with_two(channels: u16, picks: &mut Picks) -> Vec<u8> {
    let random = &mut Random::new(u64::from(channels));
    let mut file = File { tail: vec![0x16; 9], ..filled(channels, FRAMES, || noisy(2, random)) };
    let two = [(); 2].map(|_| (picks.pick(&FAULTS), picks.below(GROUPS), picks.below(channels.into())));
    for (fault, group, channel) in two {
        if let Laid(change) = fault {
            change(&mut file.groups[group][channel]);
        }
    }
    let (mut bytes, places) = (file.bytes(), file.places());
    for (fault, group, channel) in two {
        if let Put(change) = fault {
            change(&mut bytes, &places, group, channel);
        }
    }
    bytes
}
