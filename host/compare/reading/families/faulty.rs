//! All single and double faults of good files, and all triple ones of one file: these pin the order of checks.
use super::{good, Part};
use crate::faults::{put, set_end};
use crate::files::{File, Places};

/// One part of a file set to something else. Twice the same is once.
#[derive(Clone, Copy)]
enum Fault {
    /// So many bytes from a place on.
    Put(usize, usize, u64),
    /// The data size and the last entry.
    End(usize),
    Cut(usize),
}

use Fault::*;

impl Fault {
    fn apply(self, bytes: &mut Vec<u8>, places: &Places) {
        match self {
            Put(at, n, value) => put(bytes, at, n, value),
            End(end) => set_end(bytes, places, end),
            Cut(length) => bytes.truncate(length),
        }
    }
}

/// Ordered pairs; a fault with itself is the single one.
pub fn pairs() -> Vec<Part> {
    good::all().into_iter().map(|file| of_faults(file, 2)).collect()
}

pub fn triples() -> Vec<Part> {
    vec![of_faults(File { tail: vec![0x5A; 20], ..good::groups() }, 3)]
}

/// Every `depth` faults one after another.
fn of_faults(file: File, depth: u32) -> Part {
    let (bytes, places) = (file.bytes(), file.places());
    let faults = faults(&bytes, &places);
    Part::new(faults.len().pow(depth), move |k| {
        let mut faulty = bytes.clone();
        (0..depth).for_each(|place| faults[k / faults.len().pow(place) % faults.len()].apply(&mut faulty, &places));
        faulty
    })
}

fn faults(bytes: &[u8], places: &Places) -> Vec<Fault> {
    let mut list = in_header(bytes, places);
    list.extend(in_table(places));
    let all: Vec<usize> = places.blocks.iter().flatten().copied().collect();
    let mut some: Vec<usize> = [all.first(), all.get(1), all.last()].into_iter().flatten().copied().collect();
    some.dedup();
    list.extend(some.iter().flat_map(|at| in_block(bytes, *at)));
    list.extend([0, 119, 120, places.start - 1, places.start + places.size - 1].map(Cut));
    list
}

fn in_header(bytes: &[u8], places: &Places) -> Vec<Fault> {
    let [table, start, size] = [places.table, places.start, places.size].map(|n| n as u64);
    let (frames, rest) = (u64::from(places.frames), (bytes.len() - places.start) as u64);
    let most = u64::from(u32::MAX);
    let fields: [(usize, usize, &[u64]); 9] = [
        (0, 1, &[0]),
        (4, 1, &[0x30, 0x32]),
        (8, 2, &[0, 1, 3, 65_535]),
        (10, 2, &[0, 12, 16, 33]),
        (12, 4, &[0]),
        (16, 4, &[0, 512, 513, frames + 512, most]),
        (20, 4, &[119, table + 1, most]),
        (24, 4, &[table - 1, start - 4, start + 1, most]),
        (28, 4, &[0, size + 1, rest + 1, most]),
    ];
    fields.iter().flat_map(|(at, n, values)| values.iter().map(|value| Put(*at, *n, *value))).collect()
}

fn in_table(places: &Places) -> Vec<Fault> {
    let least = 80 * places.channels;
    let last = places.blocks.last().map_or(0, |group| group[0] - places.start);
    let ends = [0, least - 1, least, places.size.saturating_sub(1), places.size + 1, last + least];
    let second = (places.table + 4).min(places.start - 4);
    let entries = [
        (places.table, 1),
        (places.table, least),
        (second, least - 1),
        (second, least),
        (places.start - 4, 0),
        (places.start - 4, places.size + 1),
    ];
    ends.map(End).into_iter().chain(entries.map(|(at, value)| Put(at, 4, value as u64))).collect()
}

fn in_block(bytes: &[u8], at: usize) -> Vec<Fault> {
    let flags = u64::from(bytes[at + 10]);
    let words = [0, 33, 0x8000].map(|bits| Put(at + 8, 2, bits));
    let bits = [flags ^ 1, flags ^ 2, flags | 0xFFFC].map(|flags| Put(at + 10, 2, flags));
    words.into_iter().chain(bits).chain([Put(at, 1, 0)]).collect()
}
