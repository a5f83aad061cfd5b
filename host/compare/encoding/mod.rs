//! Calls that encode.
mod answers;
mod check;
mod families;
mod rooms;
mod shrink;
mod sides;

use crate::families::Family;
use crate::input::{Difference, Input};
use crate::lent::as_bytes;
use crate::shrink::Search;
use crate::writing::{Sampled, RATE};
use answers::{OfCalls, Tally};
pub use sides::{MODES, OUR_MODES};

/// All that a call is given, but for the room.
#[derive(Clone, PartialEq)]
pub struct Call {
    /// Their bytes, 4 a sample, which may be too few for the last one.
    pub samples: Vec<u8>,
    pub channels: u16,
    pub depth: u16,
    pub rate: u32,
    pub mode: u32,
}

impl Call {
    fn new(samples: &[i32], channels: u16, depth: u16, mode: u32) -> Self {
        Call { samples: as_bytes(samples), channels, depth, rate: RATE, mode }
    }

    /// The most bytes that a file of so many samples can have, of 8 channels at most.
    pub fn longest(&self) -> usize {
        let channels = usize::from(self.channels.clamp(1, 8));
        124 + self.samples.len().div_ceil(2048 * channels) * (4 + channels * (16 + 64 * 32))
    }
}

impl Sampled for Call {
    fn bytes(&self) -> &[u8] {
        &self.samples
    }

    fn with(&self, samples: &[i32]) -> Self {
        Call { samples: as_bytes(samples), ..*self }
    }
}

impl Input for Call {
    type Answers = OfCalls;

    const NAME: &'static str = "encodings";
    const COMMAND: &'static str = "compare encode";

    fn families(count: usize, seed: u64) -> Vec<Family<Self>> {
        families::all(count, seed)
    }

    fn check(&self, tally: &mut Tally) -> Result<(), Difference> {
        check::check(self, tally)
    }

    fn size(&self) -> usize {
        self.samples.len()
    }

    fn shrink(search: &mut Search<Self>) {
        shrink::shrink(search);
    }

    fn shown(&self) -> (String, Vec<&[u8]>) {
        let Call { samples, channels, depth, rate, mode } = self;
        let settings = format!("channels {channels}, depth {depth}, rate {rate}, mode {mode}");
        (format!("{} bytes of samples, {settings}", samples.len()), vec![samples])
    }
}
