//! The summaries and the files, by families.
mod drawn;
mod faulty;
mod files;
mod numbers;

use super::Call;
use crate::families::{filled_up, Family};

type Part = crate::families::Part<Call>;

pub fn all(count: usize, seed: u64) -> Vec<Family<Call>> {
    let families = vec![
        Family { name: "asked", parts: numbers::asked() },
        Family { name: "values", parts: numbers::values() },
        Family { name: "lengths", parts: numbers::lengths() },
        Family { name: "forms", parts: files::forms() },
        Family { name: "widths", parts: files::widths() },
        Family { name: "bytes", parts: numbers::bytes() },
        Family { name: "promises", parts: numbers::promises() },
        Family { name: "faults", parts: faulty::pairs() },
        Family { name: "held", parts: files::held() },
        Family { name: "damaged", parts: files::damaged() },
        Family { name: "files", parts: drawn::of_files() },
    ];
    filled_up(families, count, |left| drawn::random(left, seed))
}
