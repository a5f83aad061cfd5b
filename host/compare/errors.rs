//! What the drop-in crate refuses by.
use crate::input::Refused;

/// Stands for an error that has no number, which nothing is refused by.
const WITHOUT_NUMBER: u32 = 999;

/// Document 01's number for an error of the drop-in crate.
pub fn number_of(error: &ours::NcwError) -> u32 {
    error.number().unwrap_or(WITHOUT_NUMBER)
}

pub fn refused(error: ours::NcwError) -> Refused {
    let number = number_of(&error);
    match error {
        ours::NcwError::UnsupportedBitDepth(bits) => (number, bits),
        _ => (number, 0),
    }
}
