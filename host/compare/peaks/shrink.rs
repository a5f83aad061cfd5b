//! A smaller summary and a smaller file on which the sides still differ.
use super::sides::decoded;
use super::Call;
use crate::parts::parts;
use crate::shrink::{fewer, stretches};
use crate::simpler::edits;
use crate::summaries;

type Search = crate::shrink::Search<Call>;

pub fn shrink(search: &mut Search) {
    while search.drop_one() || search.simplify() || search.shorten() || search.leave_out() || search.lessen() {}
    search.clear();
}

impl Search {
    /// One of the two is nothing at all.
    fn drop_one(&mut self) -> bool {
        let Call { summary, file, group, channel } = self.input.clone();
        self.keeps(Call { summary: Vec::new(), file: file.clone(), group, channel })
            || self.keeps(Call { summary, file: Vec::new(), group, channel })
    }

    /// A file with less in it, laid out anew; beside the bytes that there are, or beside its own summary.
    fn simplify(&mut self) -> bool {
        let Some(whole) = parts(&self.input.file) else { return false };
        edits(&whole).iter().any(|edit| {
            let mut file = parts(&self.input.file).expect("it has parts");
            edit(&mut file);
            let file = file.bytes();
            let own = summaries::build(&decoded(&file), u64::MAX);
            self.keeps(Call { file: file.clone(), ..self.input.clone() })
                || own.is_ok_and(|summary| self.keeps(Call { summary, file, ..self.input }))
        })
    }

    /// Without bytes at the end of the file, or of the summary.
    fn shorten(&mut self) -> bool {
        let Call { summary, file, .. } = self.input.clone();
        fewer(&file).into_iter().any(|file| self.keeps(Call { file, ..self.input.clone() }))
            || fewer(&summary).into_iter().any(|summary| self.keeps(Call { summary, ..self.input.clone() }))
    }

    /// Without one byte of the summary, or without two.
    fn leave_out(&mut self) -> bool {
        let n = self.input.summary.len().min(200);
        (1..=2).any(|count| {
            (0..(n + 1).saturating_sub(count)).any(|at| {
                let mut call = self.input.clone();
                call.summary.drain(at..at + count);
                self.keeps(call)
            })
        })
    }

    /// An earlier group or channel.
    fn lessen(&mut self) -> bool {
        let Call { group, channel, .. } = self.input;
        let less = |n: u32| [0, 1, n / 2, n.saturating_sub(1)].into_iter().filter(move |k| *k < n);
        let pairs = less(group).map(|group| (group, channel)).chain(less(channel).map(|channel| (group, channel)));
        pairs.collect::<Vec<_>>().into_iter().any(|(group, channel)| {
            let Call { summary, file, .. } = self.input.clone();
            self.keeps(Call { summary, file, group, channel })
        })
    }

    /// Zeros where the sides still differ, in long stretches first.
    fn clear(&mut self) {
        for stretch in stretches(self.input.file.len()) {
            let mut call = self.input.clone();
            call.file[stretch].fill(0);
            self.keeps(call);
        }
        for at in 0..self.input.summary.len().min(500) {
            let mut call = self.input.clone();
            call.summary[at] = 0;
            self.keeps(call);
        }
    }
}
