//! Files, opened and decoded. A file is its bytes.
mod answers;
mod check;
pub mod families;
mod rooms;
mod shrink;
pub mod sides;
pub mod watched;

use crate::families::Family;
use crate::input::{Difference, Input};
use crate::shrink::Search;
use answers::{OfFiles, Tally};

impl Input for Vec<u8> {
    type Answers = OfFiles;

    const NAME: &'static str = "files";
    const COMMAND: &'static str = "compare";

    fn families(count: usize, seed: u64) -> Vec<Family<Self>> {
        families::all(count, seed)
    }

    fn check(&self, tally: &mut Tally) -> Result<(), Difference> {
        check::check(self, tally)
    }

    fn size(&self) -> usize {
        self.len()
    }

    fn shrink(search: &mut Search<Self>) {
        shrink::shrink(search);
    }

    fn shown(&self) -> (String, Vec<&[u8]>) {
        (format!("{} bytes", self.len()), vec![self])
    }
}
