//! A few frames of a file.
mod answers;
mod check;
mod families;
mod mended;
mod rooms;
mod shrink;
pub mod sides;

use crate::families::Family;
use crate::input::{Difference, Input};
use crate::shrink::Search;
use answers::{OfRanges, Tally};

/// What a call is given, all but the room: a file, the first frame's number, and how many.
#[derive(Clone, PartialEq)]
pub struct Call {
    pub file: Vec<u8>,
    pub first: u32,
    pub count: u32,
}

impl Call {
    /// The frame behind the last, which may take more than 32 bits.
    fn end(&self) -> u64 {
        u64::from(self.first) + u64::from(self.count)
    }
}

impl Input for Call {
    type Answers = OfRanges;

    const NAME: &'static str = "ranges";
    const COMMAND: &'static str = "compare frames";

    fn families(count: usize, seed: u64) -> Vec<Family<Self>> {
        families::all(count, seed)
    }

    fn check(&self, tally: &mut Tally) -> Result<(), Difference> {
        check::check(self, tally)
    }

    fn size(&self) -> usize {
        self.file.len()
    }

    fn shrink(search: &mut Search<Self>) {
        shrink::shrink(search);
    }

    fn shown(&self) -> (String, Vec<&[u8]>) {
        let Call { file, first, count } = self;
        (format!("{} bytes of the file, first frame {first}, count {count}", file.len()), vec![file])
    }
}
