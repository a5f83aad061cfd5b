//! Faults of calls: one thing in the samples, the settings or the template becomes another.
use super::Call;
use crate::faults::{put, set_end, toggle};
use crate::files::Places;
use crate::lent::as_bytes;
use crate::writing::Sampled;

/// Which block is spoiled, and where the parts of the template are.
pub struct Spot {
    places: Places,
    group: usize,
    channel: usize,
}

impl Spot {
    pub fn new(places: Places, group: usize, channel: usize) -> Self {
        Spot { places, group, channel }
    }

    /// Where the block begins: where the data do, if there is none.
    fn block(&self) -> usize {
        self.places.blocks.get(self.group).map_or(self.places.start, |group| group[self.channel])
    }

    /// Where the block's group begins in the data.
    fn group(&self) -> usize {
        self.places.blocks.get(self.group).map_or(0, |group| group[0] - self.places.start)
    }

    /// The group's first frame, and the one after its last.
    fn frames(&self) -> (usize, usize) {
        (512 * self.group, (512 * self.group + 512).min(self.places.frames as usize))
    }
}

pub type Fault = fn(&mut Call, &Spot);

fn set(call: &mut Call, at: usize, n: usize, value: usize) {
    put(&mut call.template, at, n, value as u64);
}

/// The entry of the group, of the next one, and so on.
fn set_entry(call: &mut Call, spot: &Spot, next: usize, value: usize) {
    set(call, (spot.places.table + 4 * (spot.group + next)).min(spot.places.start - 4), 4, value);
}

/// The group has so many bytes: its end is the next entry, and that of the last group the data size too.
fn end_after(call: &mut Call, spot: &Spot, bytes: usize) {
    let end = spot.group() + bytes;
    if spot.group + 1 < spot.places.blocks.len() {
        set_entry(call, spot, 1, end);
    } else {
        set_end(&mut call.template, &spot.places, end);
    }
}

/// The whole group, which ends where the next begins.
fn length(spot: &Spot) -> usize {
    let next = spot.places.blocks.get(spot.group + 1).map_or(spot.places.size, |group| group[0] - spot.places.start);
    next - spot.group()
}

fn set_block(call: &mut Call, spot: &Spot, bits: i16, flags: u16) {
    set(call, spot.block() + 8, 2, bits as usize);
    set(call, spot.block() + 10, 2, flags.into());
}

fn set_bits(call: &mut Call, spot: &Spot, bits: i16) {
    set(call, spot.block() + 8, 2, bits as usize);
}

fn bits(call: &Call, spot: &Spot) -> i16 {
    let word = call.template.get(spot.block() + 8..spot.block() + 10);
    word.map_or(2, |word| i16::from_le_bytes([word[0], word[1]]))
}

/// One step wider, so that values are missing; or narrower, so that bytes are left.
fn widen(call: &mut Call, spot: &Spot, by: i16) {
    let bits = bits(call, spot);
    set_bits(call, spot, bits.wrapping_add(by * bits.signum()));
}

/// One sample of the block's channel becomes another, in the first frame of its group or in the last.
fn set_sample(call: &mut Call, spot: &Spot, last: bool, other: fn(i32) -> i32) {
    let (first, end) = spot.frames();
    let frame = if last { end.saturating_sub(1) } else { first };
    let Some(mut samples) = call.numbers() else { return };
    if let Some(sample) = samples.get_mut(frame * spot.places.channels + spot.channel) {
        *sample = other(*sample);
        call.samples = as_bytes(&samples);
    }
}

fn cut_samples(call: &mut Call, less: usize) {
    call.samples.truncate(call.samples.len().saturating_sub(less));
}

/// In the call itself: 39, 30, 31, 32, what the template says otherwise, and what doesn't fit.
const IN_CALLS: &[Fault] = &[
    |call, _| cut_samples(call, 1),
    |call, _| call.channels = 0,
    |call, _| call.channels = 3,
    |call, _| call.channels = 3 - call.channels.min(2),
    |call, _| call.depth = 8,
    |call, _| call.depth = 32,
    |call, _| call.depth = if call.depth == 16 { 24 } else { 16 },
    |call, _| call.rate = 0,
    |call, _| call.rate = 44_101,
    |call, _| cut_samples(call, 4),
    |call, _| cut_samples(call, 8),
    |call, _| call.samples.extend([0; 8]),
    |call, spot| set_sample(call, spot, false, |_| i32::MAX),
    |call, spot| set_sample(call, spot, true, |_| -8_388_609),
    |call, spot| set_sample(call, spot, false, |sample| sample ^ 1),
    |call, spot| set_sample(call, spot, true, |sample| sample ^ 1),
    |call, spot| set_sample(call, spot, false, |sample| sample ^ 0x7FF0),
    |call, spot| set_sample(call, spot, true, |sample| sample ^ 0x7FF1),
];

/// 1, 2, 40, 41, 42.
const IN_LAYOUT: &[Fault] = &[
    |call, _| call.template.clear(),
    |call, _| call.template.truncate(119),
    |call, _| call.template.truncate(120),
    |call, spot| call.template.truncate(spot.places.start - 1),
    |call, spot| call.template.truncate(spot.places.start + spot.places.size - 1),
    |call, _| toggle(&mut call.template, 0, 1),
    |call, _| toggle(&mut call.template, 4, 2),
    |call, _| toggle(&mut call.template, 8, 3),
    |call, _| set(call, 10, 2, 8),
    |call, _| set(call, 10, 2, 32),
    |call, _| set(call, 12, 4, 0),
    |call, spot| set(call, 16, 4, spot.places.frames as usize + 1),
    |call, spot| set(call, 16, 4, spot.places.frames as usize + 512),
    |call, _| set(call, 20, 4, 119),
    |call, _| set(call, 20, 4, 120),
    |call, spot| set(call, 24, 4, spot.places.table - 1),
    |call, spot| set(call, 24, 4, spot.places.start - 1),
    |call, spot| set(call, 24, 4, spot.places.start + 1),
    |call, spot| set(call, 28, 4, spot.places.size + 1),
    |call, spot| set(call, 28, 4, call.template.len().saturating_sub(spot.places.start) + 1),
    |call, _| set(call, 28, 4, 0xFFFF_FFFF),
    |call, spot| set(call, spot.places.table, 4, 1),
    |call, spot| set(call, spot.places.start - 4, 4, spot.places.size + 1),
    |call, spot| set_entry(call, spot, 0, length(spot) + spot.group()),
    |call, spot| set_entry(call, spot, 1, spot.group()),
];

/// 43, 34 and 35, 1, 3, 44, 45, 4, 1, 46; and what is accepted.
const IN_GROUPS: &[Fault] = &[
    |call, spot| end_after(call, spot, 0),
    |call, spot| end_after(call, spot, 11),
    |call, spot| end_after(call, spot, 12),
    |call, spot| end_after(call, spot, 15),
    |call, spot| end_after(call, spot, 16),
    |call, spot| end_after(call, spot, 79),
    |call, spot| end_after(call, spot, 80),
    |call, spot| end_after(call, spot, spot.block() - spot.places.start - spot.group() + 15),
    |call, spot| end_after(call, spot, length(spot).saturating_sub(1)),
    |call, spot| end_after(call, spot, length(spot) + 1),
    |call, spot| toggle(&mut call.template, spot.block(), 1),
    |call, spot| toggle(&mut call.template, spot.block() + 3, 128),
    |call, spot| toggle(&mut call.template, spot.block() + 10, 1),
    |call, spot| toggle(&mut call.template, spot.places.start + spot.group() + 10, 1),
    |call, spot| set(call, spot.block() + 10, 2, 2),
    |call, spot| set(call, spot.block() + 10, 2, 3),
    |call, spot| set(call, spot.block() + 10, 2, 0x8000),
    |call, spot| set_bits(call, spot, 0),
    |call, spot| set_bits(call, spot, 1),
    |call, spot| set_bits(call, spot, -1),
    |call, spot| set_bits(call, spot, 33),
    |call, spot| set_bits(call, spot, -33),
    |call, spot| set_bits(call, spot, i16::MAX),
    |call, spot| set_bits(call, spot, i16::MIN),
    |call, spot| set_block(call, spot, 0, 2),
    |call, spot| set_block(call, spot, 1, 3),
    |call, spot| set_block(call, spot, 33, 2),
    |call, spot| widen(call, spot, 1),
    |call, spot| widen(call, spot, -1),
];

pub fn all() -> Vec<Fault> {
    [IN_CALLS, IN_LAYOUT, IN_GROUPS].concat()
}
