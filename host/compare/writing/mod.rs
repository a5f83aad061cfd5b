//! What encoding and re-encoding have in common.
pub mod lists;
pub mod settings;
pub mod shrink;

use crate::input::{differ, differ_in, word, Difference};
use crate::lent::Written;

/// The depths that re-encoding accepts, and that the original encodes.
pub const DEPTHS: [u16; 2] = [16, 24];

pub const RATE: u32 = 44_100;

/// A call that is given samples.
pub trait Sampled: Sized {
    /// Their bytes, 4 a sample, which may be too few for the last one.
    fn bytes(&self) -> &[u8];

    /// The same call with other samples.
    fn with(&self, samples: &[i32]) -> Self;

    /// The samples, if the last one is whole.
    fn numbers(&self) -> Option<Vec<i32>> {
        let whole = self.bytes().len() % 4 == 0;
        let number = |four: &[u8]| i32::from_le_bytes([four[0], four[1], four[2], four[3]]);
        whole.then(|| self.bytes().chunks_exact(4).map(number).collect())
    }
}

/// Holds what was written to what has to be.
pub fn same(what: &str, rust: &Written, ours: &Written) -> Result<(), Difference> {
    match (rust, ours) {
        _ if rust == ours => Ok(()),
        (Ok(rust), Ok(ours)) if rust.len() == ours.len() => differ_in(&format!("{what}, byte"), rust, ours),
        _ => {
            let [rust, ours] = [rust, ours].map(|said| match said {
                Ok(file) => format!("{} bytes", file.len()),
                Err(number) => word(*number),
            });
            differ(what, &rust, &ours)
        }
    }
}
