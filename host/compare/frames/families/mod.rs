//! The ranges, by families.
mod borders;
mod damaged;
mod drawn;

use super::Call;
use crate::families::{filled_up, Family};

type Part = crate::families::Part<Call>;

pub fn all(count: usize, seed: u64) -> Vec<Family<Call>> {
    let families = vec![
        Family { name: "borders", parts: borders::all() },
        Family { name: "sums", parts: borders::sums() },
        Family { name: "long", parts: borders::long() },
        Family { name: "pieces", parts: borders::pieces() },
        Family { name: "damaged", parts: damaged::all() },
        Family { name: "files", parts: drawn::of_files() },
    ];
    filled_up(families, count, |left| drawn::random(left, seed))
}
