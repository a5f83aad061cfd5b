//! Summaries of peaks: built of a file, read, and held to a file.
mod answers;
mod check;
mod families;
mod rooms;
mod shrink;
mod sides;

use crate::families::Family;
use crate::input::{Difference, Input};
use crate::shrink::Search;
use answers::{OfSummaries, Tally};

/// Bytes that are read as a summary, a file whose summary is built and which they are held to, and the group and the channel of the pair that is
/// asked for.
#[derive(Clone, PartialEq)]
pub struct Call {
    pub summary: Vec<u8>,
    pub file: Vec<u8>,
    pub group: u32,
    pub channel: u32,
}

impl Input for Call {
    type Answers = OfSummaries;

    const NAME: &'static str = "summaries";
    const COMMAND: &'static str = "compare peaks";

    fn families(count: usize, seed: u64) -> Vec<Family<Self>> {
        families::all(count, seed)
    }

    fn check(&self, tally: &mut Tally) -> Result<(), Difference> {
        check::check(self, tally)
    }

    fn size(&self) -> usize {
        self.summary.len() + self.file.len()
    }

    fn shrink(search: &mut Search<Self>) {
        shrink::shrink(search);
    }

    fn shown(&self) -> (String, Vec<&[u8]>) {
        let Call { summary, file, group, channel } = self;
        let words = format!(
            "{} bytes of the summary, {} bytes of the file, group {group}, channel {channel}",
            summary.len(),
            file.len()
        );
        (words, vec![summary, file])
    }
}
