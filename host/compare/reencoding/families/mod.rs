//! The calls, by families.
mod bytes;
mod drawn;
mod encoded;
mod faults;
mod faulty;
mod good;
mod groups;
mod parity;
mod settings;
mod templates;
mod variants;
mod widths;
mod wraps;

use super::Call;
use crate::families::{filled_up, Family};

type Part = crate::families::Part<Call>;

pub fn all(count: usize, seed: u64) -> Vec<Family<Call>> {
    let families = vec![
        Family { name: "kept", parts: vec![bytes::kept()] },
        Family { name: "faults", parts: faulty::pairs() },
        Family { name: "encoded", parts: vec![encoded::all()] },
        Family { name: "flags", parts: groups::flags() },
        Family { name: "groups", parts: groups::lengths() },
        Family { name: "tables", parts: groups::tables() },
        Family { name: "steps", parts: widths::steps() },
        Family { name: "words", parts: vec![widths::words()] },
        Family { name: "pairs", parts: vec![widths::pairs()] },
        Family { name: "parity", parts: vec![parity::all()] },
        Family { name: "wraps", parts: vec![wraps::pairs()] },
        Family { name: "bases", parts: vec![wraps::bases()] },
        Family { name: "lengths", parts: bytes::lengths() },
        Family { name: "bytes", parts: bytes::values() },
        Family { name: "limits", parts: bytes::limits() },
        Family { name: "settings", parts: vec![settings::all()] },
        Family { name: "ragged", parts: vec![settings::ragged()] },
    ];
    filled_up(families, count, |left| drawn::random(left, seed))
}
