//! The order of checks. Each list spoils one check after another, the last check first. After n of them the last n checks
//! fail, and the earliest of these must be the one that is told.
use crate::faults::{put, set_end, toggle};
use crate::files::{File, Places};
use ncw::PcmSpec;

/// A call in the making.
pub struct Call {
    pub spec: PcmSpec,
    pub samples: Vec<i32>,
    pub file: Vec<u8>,
    places: Places,
    /// The block that is spoiled.
    at: usize,
}

type Spoil = fn(&mut Call);

impl Call {
    /// The block is the given one of the given group, where the file has it.
    pub fn new(spec: PcmSpec, samples: Vec<i32>, file: &File, group: usize, channel: usize) -> Self {
        let places = file.places();
        let at = places.blocks.get(group).map_or(places.start, |blocks| blocks[channel]);
        Call { spec, samples, file: file.bytes(), places, at }
    }

    pub fn spoiled(mut self, spoils: &[Spoil], n: usize) -> Self {
        spoils[..n].iter().for_each(|spoil| spoil(&mut self));
        self
    }

    fn set(&mut self, at: usize, n: usize, value: u64) {
        put(&mut self.file, at, n, value);
    }

    /// The data end so many bytes after the block's first.
    fn end_after(&mut self, bytes: usize) {
        let end = self.at - self.places.start + bytes;
        set_end(&mut self.file, &self.places, end);
    }

    /// Bytes left after the data.
    fn leave_bytes(&mut self) {
        set_end(&mut self.file, &self.places, self.places.size + 1);
    }

    fn lack_a_byte(&mut self) {
        set_end(&mut self.file, &self.places, self.places.size - 1);
    }

    fn lack_a_sample(&mut self) {
        self.samples.pop();
    }

    /// The first frame's two samples.
    fn differ_in_parity(&mut self) {
        if self.spec.channels == 2 {
            self.samples[1] = self.samples[0] ^ 1;
        }
    }
}

/// 3, 19 or 17, 18, 16, 1, 15, 14, 13, 12, 11, 10, 2, 1
pub const OF_OPENING: &[Spoil] = &[
    |call| toggle(&mut call.file, call.places.start, 1),
    |call| set_end(&mut call.file, &call.places, 1),
    |call| call.set(call.places.table, 4, 2),
    |call| call.set(call.places.start - 4, 4, 3),
    |call| call.set(28, 4, 0xFFFF_FFFF),
    |call| call.set(16, 4, u64::from(call.places.frames) + 512),
    |call| call.set(24, 4, 100),
    |call| call.set(20, 4, 119),
    |call| call.set(12, 4, 0),
    |call| call.set(10, 2, 17),
    |call| call.set(8, 2, 0),
    |call| toggle(&mut call.file, 0, 1),
    |call| call.file.truncate(119),
];

/// A later group's first block, not in stereo: 22, 1, 4, 21, 20, 3
pub const OF_FIRST_BLOCK: &[Spoil] = &[
    |call| call.leave_bytes(),
    |call| call.lack_a_byte(),
    |call| call.set(call.at + 8, 2, 33),
    |call| toggle(&mut call.file, call.at + 10, 1),
    |call| toggle(&mut call.file, call.at + 10, 2),
    |call| toggle(&mut call.file, call.at, 1),
];

/// A later channel's block: 22, 1, 4, 20, 3, 1
pub const OF_LATER_BLOCK: &[Spoil] = &[
    |call| call.leave_bytes(),
    |call| call.lack_a_byte(),
    |call| call.set(call.at + 8, 2, 0x8000),
    |call| toggle(&mut call.file, call.at + 10, 2),
    |call| toggle(&mut call.file, call.at, 1),
    |call| call.end_after(15),
];

/// MidSide: 34 or 35, 32, 31, 30
pub const OF_ENCODING: &[Spoil] = &[
    |call| call.differ_in_parity(),
    |call| call.samples[0] = i32::MAX,
    |call| call.lack_a_sample(),
    |call| call.spec.sample_rate = 0,
];

/// 46, 36, 1, 4, 45, 44, 3, 1, 34 or 35, 43, 42 by an empty group, 42 by the first entry, 41, 40, 2, 1, 32, 31, 30
pub const OF_REENCODING: &[Spoil] = &[
    |call| call.leave_bytes(),
    |call| call.samples.fill(32766),
    |call| call.lack_a_byte(),
    |call| call.set(call.at + 8, 2, 33),
    |call| call.set(call.at + 10, 2, 2),
    |call| call.set(call.at + 8, 2, 1),
    |call| toggle(&mut call.file, call.at, 1),
    |call| call.end_after(15),
    |call| {
        call.set(call.at + 10, 2, 3);
        call.differ_in_parity();
    },
    |call| call.end_after(11),
    |call| call.end_after(0),
    |call| call.set(call.places.table, 4, 1),
    |call| call.set(20, 4, 119),
    |call| toggle(&mut call.file, 12, 2),
    |call| toggle(&mut call.file, 0, 1),
    |call| call.file.truncate(119),
    |call| call.samples[0] = i32::MAX,
    |call| call.lack_a_sample(),
    |call| call.spec.sample_rate = 0,
];
