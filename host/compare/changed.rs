//! Files cut at every length, with every value of a byte, and with numbers at each limit.
use crate::families::Part;
use crate::faults::put;
use crate::files::{File, Places};
use std::collections::BTreeSet;

/// Every length of the bytes.
pub fn cut(bytes: Vec<u8>) -> Part<Vec<u8>> {
    Part::new(bytes.len() + 1, move |length| bytes[..length].to_vec())
}

/// Every value of each of the bytes.
pub fn each_byte(bytes: Vec<u8>) -> Part<Vec<u8>> {
    Part::new(256 * bytes.len(), move |k| {
        let mut changed = bytes.clone();
        changed[k / 256] = k as u8;
        changed
    })
}

/// Every short length of bytes that are no file.
pub fn no_files() -> Vec<Part<Vec<u8>>> {
    let signature = [0x01, 0xA8, 0x9E, 0xD6, 0x31, 0x01, 0x00, 0x00];
    [vec![0; 300], vec![0xFF; 300], [&signature[..], &[0; 300]].concat()].map(cut).into()
}

/// Every value of each byte that says how a file is laid out.
pub fn values(file: &File) -> Part<Vec<u8>> {
    let (bytes, at) = (file.bytes(), telling(&file.places()));
    Part::new(256 * at.len(), move |k| {
        let mut changed = bytes.clone();
        changed[at[k / 256]] = k as u8;
        changed
    })
}

/// The header's numbers, the table, and the header of each block.
fn telling(places: &Places) -> Vec<usize> {
    let blocks = places.blocks.iter().flatten().flat_map(|at| *at..*at + 16);
    (0..32).chain(places.table..places.start).chain(blocks).collect()
}

/// Two numbers of a file at each limit, and one beside it: both offsets, the data size beside the last entry, and so on.
pub fn limits(file: &File) -> Vec<Part<Vec<u8>>> {
    of_places(&file.places()).map(|pair| at_limits(file, pair)).into()
}

/// Where two numbers of four bytes are.
fn of_places(places: &Places) -> [(usize, usize); 7] {
    let (first, second, last) = (places.table, (places.table + 4).min(places.start - 4), places.start - 4);
    [(20, 24), (28, last), (16, 20), (16, 24), (24, 28), (first, second), (second, last)]
}

fn at_limits(file: &File, (one, other): (usize, usize)) -> Part<Vec<u8>> {
    let (bytes, values) = (file.bytes(), limits_of(&file.places(), file.bytes().len()));
    Part::new(values.len() * values.len(), move |k| {
        let mut changed = bytes.clone();
        put(&mut changed, one, 4, values[k / values.len()]);
        put(&mut changed, other, 4, values[k % values.len()]);
        changed
    })
}

fn limits_of(places: &Places, length: usize) -> Vec<u64> {
    let (least, end) = (80 * places.channels, places.start + places.size);
    let bounds = [1, 120, 512, 1024, least, 2 * least, places.size, places.start, places.table, places.table + 4];
    let ends = [length - places.start, end, length, 1 << 31, (1 << 32) - 2];
    let near = |n: &usize| [n.saturating_sub(1), *n, n + 1].map(|n| n as u64);
    BTreeSet::from_iter(bounds.iter().chain(&ends).flat_map(near)).into_iter().collect()
}
