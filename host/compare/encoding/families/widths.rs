//! Blocks that need just a width, or one more; and groups whose two forms take the same bytes, or almost.
use super::{Call, Part, ALL_DEPTHS, MODES, MOST_CHANNELS};
use crate::picks::Picks;
use crate::writing::lists::{among, edges, formed, from_mid_side, spiked, stepped, FORMS};

/// After which frame the step comes, of how many frames: first, middle, last of a whole group and of a short one, between groups and in the second.
const PLACES: [(usize, usize); 12] = [
    (0, 512),
    (1, 512),
    (255, 512),
    (509, 512),
    (510, 512),
    (0, 2),
    (1, 3),
    (100, 102),
    (511, 513),
    (511, 1_024),
    (512, 514),
    (1_022, 1_024),
];

type Shape = fn(i64, (usize, usize)) -> Vec<i32>;

const SHAPES: [Shape; 2] = [stepped, spiked];

pub fn all(depths: [u16; 2]) -> Vec<Part> {
    depths.map(|depth| in_forms(depth, steps(depth))).into()
}

/// The limits of each width, up to one that is more than the depth, and one beyond them.
fn steps(depth: u16) -> Vec<i64> {
    edges(32.min(depth + 1))
}

fn in_forms(depth: u16, steps: Vec<i64>) -> Part {
    Part::new(steps.len() * PLACES.len() * FORMS * MODES.len() * SHAPES.len(), move |k| {
        let picks = &mut Picks(k);
        let (step, place, shape) = (picks.pick(&steps), picks.pick(&PLACES), picks.pick(&SHAPES));
        let (channels, samples) = formed(picks.below(FORMS), shape(step, place));
        Call::new(&samples, channels, depth, picks.pick(&MODES))
    })
}

// ---- more channels than two

const FEW_PLACES: [(usize, usize); 3] = [(0, 2), (510, 512), (512, 514)];

pub fn channels() -> Vec<Part> {
    ALL_DEPTHS.map(|depth| in_channels(depth, steps(depth))).into()
}

/// In each of three channels, of four, and so on.
fn in_channels(depth: u16, steps: Vec<i64>) -> Part {
    let each = |channels| (0..channels).map(move |channel| (channels, channel));
    let each: Vec<(u16, u16)> = (3..=MOST_CHANNELS).flat_map(each).collect();
    Part::new(steps.len() * FEW_PLACES.len() * SHAPES.len() * each.len(), move |k| {
        let picks = &mut Picks(k);
        let (step, place, shape) = (picks.pick(&steps), picks.pick(&FEW_PLACES), picks.pick(&SHAPES));
        let (channels, channel) = picks.pick(&each);
        Call::new(&among(channels, channel, &shape(step, place)), channels, depth, 0)
    })
}

// ---- steps that leave 32 bits

/// Once they wrap they are at the limits of each width, and one beyond them.
pub fn wraps() -> Vec<Part> {
    let around = |step: i64| step - step.signum() * (1 << 32);
    let steps: Vec<i64> = edges(32).into_iter().map(around).filter(|step| i32::try_from(*step).is_err()).collect();
    vec![in_forms(32, steps.clone()), in_channels(32, steps)]
}

// ---- ties

/// Where mid has its step and where side has it: at the same place one of left and right has their sum, and the other their difference.
const TOGETHER: [(usize, usize); 3] = [(5, 5), (5, 8), (510, 510)];

/// Every pair of steps that just need a width, of mid and of side.
pub fn ties(depths: [u16; 2]) -> Vec<Part> {
    depths.map(ties_of_depth).into()
}

fn ties_of_depth(depth: u16) -> Part {
    let steps: Vec<i64> = (2..depth).map(|bits| 1 << (bits - 1)).flat_map(|edge: i64| [edge - 1, -edge]).collect();
    let n = steps.len();
    Part::new(n * n * TOGETHER.len() * MODES.len(), move |k| {
        let picks = &mut Picks(k);
        let (mid, side, (one, other)) = (picks.pick(&steps), picks.pick(&steps), picks.pick(&TOGETHER));
        let (mid, side) = (stepped(mid, (one, 512)), stepped(side, (other, 512)));
        Call::new(&from_mid_side(&mid, &side), 2, depth, picks.pick(&MODES))
    })
}
