//! A smaller file on which the two sides still differ.
use crate::parts::{parts, short_group};
use crate::shrink::{fewer, stretches};
use crate::simpler::edits;

type Search = crate::shrink::Search<Vec<u8>>;

pub fn shrink(search: &mut Search) {
    while search.simplify() || search.shorten() || search.lessen() {}
    search.clear();
}

impl Search {
    /// A file with less in it, laid out anew.
    fn simplify(&mut self) -> bool {
        let Some(whole) = parts(&self.input) else { return false };
        edits(&whole).iter().any(|edit| {
            let mut file = parts(&self.input).expect("it has parts");
            edit(&mut file);
            self.keeps(file.bytes())
        })
    }

    /// Without bytes at the end.
    fn shorten(&mut self) -> bool {
        fewer(&self.input).into_iter().any(|file| self.keeps(file))
    }

    /// One short group, from the front of the data.
    fn lessen(&mut self) -> bool {
        let groups: Vec<_> = (1..4).filter_map(|channels| short_group(&self.input, channels)).collect();
        groups.into_iter().any(|file| file.len() < self.input.len() && self.keeps(file))
    }

    /// Zeros where the sides still differ, in long stretches first.
    fn clear(&mut self) {
        for stretch in stretches(self.input.len()) {
            let mut candidate = self.input.clone();
            candidate[stretch].fill(0);
            self.keeps(candidate);
        }
    }
}
