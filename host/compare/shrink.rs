//! The search for a smaller input on which the two sides still differ.
use crate::input::{Difference, Input, Tally};
use std::ops::Range;

/// Inputs of so many bytes together are tried at most; each counts for some bytes more than it has.
const MOST_TRIED: usize = 1 << 26;
const EACH: usize = 300;

pub struct Search<I> {
    pub input: I,
    difference: Difference,
    tried: usize,
}

pub fn shrink<I: Input>(input: &I, difference: &Difference) -> (I, Difference) {
    let mut search = Search { input: input.clone(), difference: difference.clone(), tried: 0 };
    I::shrink(&mut search);
    (search.input, search.difference)
}

impl<I: Input> Search<I> {
    /// Keeps the candidate if the two sides differ on it.
    pub fn keeps(&mut self, candidate: I) -> bool {
        self.tried += EACH + candidate.size();
        if self.tried > MOST_TRIED || candidate == self.input {
            return false;
        }
        match candidate.check(&mut Tally::default()) {
            Ok(()) => false,
            Err(difference) => {
                (self.input, self.difference) = (candidate, difference);
                true
            }
        }
    }
}

/// The bytes without some at the end.
pub fn fewer(bytes: &[u8]) -> Vec<Vec<u8>> {
    let n = bytes.len();
    let less = [n, n / 2, n / 4, n / 16, 64, 8, 4, 1];
    less.into_iter().filter(|k| 0 < *k && *k <= n).map(|k| bytes[..n - k].to_vec()).collect()
}

/// Stretches of so many bytes, long ones first.
pub fn stretches(n: usize) -> impl Iterator<Item = Range<usize>> {
    let lengths = [4096, 512, 64, 8, 1].into_iter();
    lengths.flat_map(move |k| (0..n).step_by(k).map(move |at| at..n.min(at + k)))
}
