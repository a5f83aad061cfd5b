//! A smaller call on which the two sides still differ.
use super::Call;
use crate::parts::{parts, File};
use crate::shrink::{fewer, stretches};
use crate::simpler::edits;
use crate::writing::shrink::without;
use crate::writing::{Sampled, RATE};

type Search = crate::shrink::Search<Call>;

pub fn shrink(search: &mut Search) {
    while search.simplify() || search.plainer() || search.shorten() || search.flatten() {}
    search.clear();
    search.lessen_each();
}

impl Search {
    /// A template with less in it, laid out anew, and the samples that it has left.
    fn simplify(&mut self) -> bool {
        let Some(whole) = parts(&self.input.template) else { return false };
        edits(&whole).iter().any(|edit| {
            let mut file = parts(&self.input.template).expect("it has parts");
            edit(&mut file);
            [0, 1].into_iter().any(|first| self.keeps(with_file(&self.input, &whole, &file, first)))
        })
    }

    /// Settings nearer to 16 bits and 44,100, in the call and in the template at once, and zeros in the header.
    fn plainer(&mut self) -> bool {
        let Some(whole) = parts(&self.input.template) else { return false };
        [plain_depth, plain_rate, plain_header].iter().any(|plain| {
            let mut file = parts(&self.input.template).expect("it has parts");
            plain(&mut file);
            let call = with_file(&self.input, &whole, &file, 0);
            call != self.input && self.keeps(call)
        })
    }

    /// Without bytes at the end of the template, or of the samples.
    fn shorten(&mut self) -> bool {
        let call = self.input.clone();
        let of_template = fewer(&call.template).into_iter().map(|template| Call { template, ..call.clone() });
        let of_samples = fewer(&call.samples).into_iter().map(|samples| Call { samples, ..call.clone() });
        of_template.chain(of_samples).any(|call| self.keeps(call))
    }

    /// Zeros in the template where the sides still differ, in long stretches first.
    fn clear(&mut self) {
        for stretch in stretches(self.input.template.len()) {
            let mut call = self.input.clone();
            call.template[stretch].fill(0);
            self.keeps(call);
        }
    }
}

/// The template becomes `new`. What the call and `old` said alike, both still say alike, and frames that the template has no more go. Of two
/// channels the given one stays where only one does.
fn with_file(call: &Call, old: &File, new: &File, channel: usize) -> Call {
    let mut call = Call { template: new.bytes(), ..call.clone() };
    if call.channels == old.channels && new.channels < old.channels {
        call = call.with(&without(&call.numbers().unwrap_or_default(), 1 - channel, 2));
        call.channels = new.channels;
    }
    let most = 4 * new.frames as usize * usize::from(call.channels.clamp(1, 2));
    if new.frames < old.frames {
        call.samples.truncate(most);
    }
    call.depth = if call.depth == old.depth { new.depth } else { call.depth };
    call.rate = if call.rate == old.rate { new.rate } else { call.rate };
    call
}

fn plain_depth(file: &mut File) {
    file.depth = 16;
}

fn plain_rate(file: &mut File) {
    file.rate = RATE;
}

fn plain_header(file: &mut File) {
    file.mark = 0x31;
    file.unknown.fill(0);
}
