//! The files, by families.
mod bytes;
mod drawn;
mod faulty;
mod floats;
mod good;
pub mod places;
mod widths;

use crate::families::{filled_up, Family};
pub use drawn::random;
pub use widths::{any_values, DEPTHS};

type Part = crate::families::Part<Vec<u8>>;

pub fn all(count: usize, seed: u64) -> Vec<Family<Vec<u8>>> {
    let mut families = made();
    let more = [("triples", faulty::triples()), ("places", places::all())].map(|(name, parts)| Family { name, parts });
    families.splice(4..4, more);
    filled_up(families, count, |left| random(left, seed))
}

/// Those in which a file is made by a rule, but for triples and places.
pub fn made() -> Vec<Family<Vec<u8>>> {
    vec![
        Family { name: "lengths", parts: bytes::lengths() },
        Family { name: "bytes", parts: bytes::values() },
        Family { name: "limits", parts: bytes::limits() },
        Family { name: "faults", parts: faulty::pairs() },
        Family { name: "widths", parts: widths::all() },
        Family { name: "many", parts: widths::many() },
        Family { name: "floats", parts: floats::all() },
    ]
}
