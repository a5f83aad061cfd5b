//! Inputs to begin with: some of each family of host/compare.
use super::bytes::Fuzzed;
use crate::families::Family;
use crate::stop;

/// At most so many of a family, all over it, and none longer than so many bytes.
const OF_A_FAMILY: usize = 40;
const LONGEST: usize = 8192;

/// So many that there are random ones among them.
const COUNT: usize = 4_000_000;
const SEED: u64 = 1;

/// How many were put into the folder.
pub fn write<I: Fuzzed>(folder: &str) -> usize {
    I::families(COUNT, SEED).iter().map(|family| write_some(family, folder)).sum()
}

fn write_some<I: Fuzzed>(family: &Family<I>, folder: &str) -> usize {
    let step = family.count().div_ceil(OF_A_FAMILY).max(1);
    let mut written = 0;
    for index in (0..family.count()).step_by(step) {
        if let Some(bytes) = family.input(index).to_bytes().filter(|bytes| bytes.len() <= LONGEST) {
            let path = format!("{folder}/{}-{index}", family.name);
            std::fs::write(&path, bytes).unwrap_or_else(|error| stop(&format!("{path}: {error}")));
            written += 1;
        }
    }
    written
}
