//! What a call that re-encodes is given.
use crate::lent::as_bytes;
use crate::writing::Sampled;

/// All but the room.
#[derive(Clone, PartialEq)]
pub struct Call {
    /// Their bytes, 4 a sample, which may be too few for the last one.
    pub samples: Vec<u8>,
    pub channels: u16,
    pub depth: u16,
    pub rate: u32,
    pub template: Vec<u8>,
}

impl Call {
    pub fn spec(&self) -> ncw::PcmSpec {
        ncw::PcmSpec { channels: self.channels, bits_per_sample: self.depth, sample_rate: self.rate }
    }
}

impl Sampled for Call {
    fn bytes(&self) -> &[u8] {
        &self.samples
    }

    fn with(&self, samples: &[i32]) -> Self {
        Call { samples: as_bytes(samples), ..self.clone() }
    }
}
