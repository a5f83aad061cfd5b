//! Frames of equal parity but for one, at any place.
use super::{Call, Part, MODES};
use crate::picks::Picks;
use crate::samples::limits;
use crate::writing::lists::{add, place, woven, ADDED, PLACES};

const FRAMES: [usize; 11] = [1, 2, 3, 100, 511, 512, 513, 700, 1_024, 1_025, 1_100];
const KINDS: usize = 6;

pub fn all(depths: [u16; 2]) -> Part {
    Part::new(FRAMES.len() * PLACES * ADDED.len() * KINDS * depths.len() * MODES.len(), move |k| {
        let picks = &mut Picks(k);
        let (frames, at, added) = (picks.pick(&FRAMES), picks.below(PLACES), picks.pick(&ADDED));
        let (kind, depth, mode) = (picks.below(KINDS), picks.pick(&depths), picks.pick(&MODES));
        let (left, right) = even(kind, frames, depth);
        let mut samples = woven(&left, &right);
        add(&mut samples, place(at, frames), added);
        Call::new(&samples, 2, depth, mode)
    })
}

/// Both channels, of equal parity in every frame: small, of either sign, next to the limits, and alike so that mid/side is smaller.
fn even(kind: usize, frames: usize, depth: u16) -> (Vec<i32>, Vec<i32>) {
    let (low, high) = limits(depth);
    let flat = |left, right| (vec![left; frames], vec![right; frames]);
    match kind {
        0 => flat(0, 0),
        1 => flat(-1, 1),
        2 => flat(high - 1, high - 1),
        3 => flat(low + 1, low + 1),
        4 => flat(high - 1, low + 2),
        _ => {
            let rising: Vec<i32> = (0..frames as i32).map(|k| 7 * k % high.min(1_000)).collect();
            (rising.clone(), rising)
        }
    }
}
