//! Calls that re-encode with a template.
mod answers;
mod call;
mod check;
mod families;
mod misfits;
mod places;
mod rooms;
mod shrink;
mod sides;

use crate::families::Family;
use crate::input::{Difference, Input};
use crate::shrink::Search;
use answers::{OfCalls, Tally};
pub use call::Call;

impl Input for Call {
    type Answers = OfCalls;

    const NAME: &'static str = "re-encodings";
    const COMMAND: &'static str = "compare reencode";

    fn families(count: usize, seed: u64) -> Vec<Family<Self>> {
        families::all(count, seed)
    }

    fn check(&self, tally: &mut Tally) -> Result<(), Difference> {
        check::check(self, tally)
    }

    fn size(&self) -> usize {
        self.samples.len() + self.template.len()
    }

    fn shrink(search: &mut Search<Self>) {
        shrink::shrink(search);
    }

    fn shown(&self) -> (String, Vec<&[u8]>) {
        let Call { samples, channels, depth, rate, template } = self;
        let settings = format!("channels {channels}, depth {depth}, rate {rate}");
        let lengths = format!("{} bytes of samples and {} of the template", samples.len(), template.len());
        (format!("{lengths}, {settings}"), vec![samples, template])
    }
}
