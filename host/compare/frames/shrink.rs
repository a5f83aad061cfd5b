//! A smaller range on which the sides still differ.
use super::Call;
use crate::parts::parts;
use crate::shrink::{fewer, stretches};
use crate::simpler::edits;

type Search = crate::shrink::Search<Call>;

pub fn shrink(search: &mut Search) {
    while search.simplify() || search.shorten() || search.lessen() {}
    search.clear();
}

impl Search {
    /// A file with less in it, laid out anew.
    fn simplify(&mut self) -> bool {
        let Some(whole) = parts(&self.input.file) else { return false };
        edits(&whole).iter().any(|edit| {
            let mut file = parts(&self.input.file).expect("it has parts");
            edit(&mut file);
            self.keeps(Call { file: file.bytes(), ..self.input })
        })
    }

    /// Without bytes at the end of the file.
    fn shorten(&mut self) -> bool {
        fewer(&self.input.file).into_iter().any(|file| self.keeps(Call { file, ..self.input }))
    }

    /// Fewer frames, or earlier ones.
    fn lessen(&mut self) -> bool {
        let Call { first, count, .. } = self.input;
        let less =
            |n: u32| [0, 1, n / 2, n.saturating_sub(512), n.saturating_sub(1)].into_iter().filter(move |k| *k < n);
        let pairs = less(first).map(|first| (first, count)).chain(less(count).map(|count| (first, count)));
        pairs.collect::<Vec<_>>().into_iter().any(|(first, count)| {
            let file = self.input.file.clone();
            self.keeps(Call { file, first, count })
        })
    }

    /// Zeros where the sides still differ, in long stretches first.
    fn clear(&mut self) {
        for stretch in stretches(self.input.file.len()) {
            let mut call = self.input.clone();
            call.file[stretch].fill(0);
            self.keeps(call);
        }
    }
}
