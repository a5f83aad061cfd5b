//! The calls, by families.
mod alike;
mod counts;
mod drawn;
mod ends;
mod lengths;
mod orders;
mod parity;
mod settings;
mod widths;

use super::Call;
use crate::families::{filled_up, Family};
use crate::writing::DEPTHS;

type Part = crate::families::Part<Call>;

/// Channels and depth.
type Format = (u16, u16);

/// Those that the original encodes.
const ORIGINAL: [Format; 4] = [(1, 16), (2, 16), (1, 24), (2, 24)];

const MOST_CHANNELS: u16 = 8;
const ALL_DEPTHS: [u16; 4] = [8, 16, 24, 32];
const DEPTHS_02: [u16; 2] = [8, 32];

const MODES: [u32; 3] = [0, 1, 2];

/// All that document 02 lets in.
fn formats() -> impl Iterator<Item = Format> {
    (1..=MOST_CHANNELS).flat_map(|channels| ALL_DEPTHS.map(|depth| (channels, depth)))
}

/// Those of them that the original refuses.
fn formats_02() -> Vec<Format> {
    formats().filter(|format| !ORIGINAL.contains(format)).collect()
}

pub fn all(count: usize, seed: u64) -> Vec<Family<Call>> {
    let families = of_original().into_iter().chain(of_document_02()).collect();
    filled_up(families, count, |left| drawn::random(left, seed))
}

fn of_original() -> [Family<Call>; 7] {
    [
        Family { name: "settings", parts: vec![settings::all()] },
        Family { name: "ragged", parts: vec![settings::ragged()] },
        Family { name: "limits", parts: vec![settings::limits(ORIGINAL.into())] },
        Family { name: "lengths", parts: lengths::all(&ORIGINAL, 1_100, 12) },
        Family { name: "widths", parts: widths::all(DEPTHS) },
        Family { name: "parity", parts: vec![parity::all(DEPTHS)] },
        Family { name: "ties", parts: widths::ties(DEPTHS) },
    ]
}

/// The first five are as those before them, but for channels and depths.
fn of_document_02() -> [Family<Call>; 11] {
    [
        Family { name: "limits-02", parts: vec![settings::limits(formats_02())] },
        Family { name: "lengths-02", parts: lengths::all(&formats_02(), 100, 4) },
        Family { name: "widths-02", parts: widths::all(DEPTHS_02) },
        Family { name: "parity-02", parts: vec![parity::all(DEPTHS_02)] },
        Family { name: "ties-02", parts: widths::ties(DEPTHS_02) },
        Family { name: "counts", parts: vec![counts::all()] },
        Family { name: "channels", parts: widths::channels() },
        Family { name: "wraps", parts: widths::wraps() },
        Family { name: "ends", parts: vec![ends::all()] },
        Family { name: "alike", parts: vec![alike::all()] },
        Family { name: "orders", parts: vec![orders::all()] },
    ]
}
