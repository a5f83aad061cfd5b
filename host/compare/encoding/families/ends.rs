//! Pairs at both ends of a depth: one frame has another pair than all the others.
use super::{Call, Part, ALL_DEPTHS, MODES};
use crate::picks::Picks;
use crate::samples::limits;

const NUMBERS: usize = 6;

/// Which frame it is, of how many.
const PLACES: [(usize, usize); 3] = [(0, 2), (511, 512), (600, 1_025)];

pub fn all() -> Part {
    Part::new(NUMBERS.pow(4) * PLACES.len() * MODES.len() * ALL_DEPTHS.len(), |k| {
        let picks = &mut Picks(k);
        let (pairs, (at, frames)) = ([(); 4].map(|_| picks.below(NUMBERS)), picks.pick(&PLACES));
        let (mode, depth) = (picks.pick(&MODES), picks.pick(&ALL_DEPTHS));
        let [left, right, other_left, other_right] = pairs.map(|pick| numbers(depth)[pick]);
        let pair = |frame| if frame == at { [other_left, other_right] } else { [left, right] };
        Call::new(&(0..frames).flat_map(pair).collect::<Vec<_>>(), 2, depth, mode)
    })
}

fn numbers(depth: u16) -> [i32; NUMBERS] {
    let (low, high) = limits(depth);
    [low, low + 1, -1, 0, high - 1, high]
}
