//! Other files, those of reading among them, each with a range that is drawn.
use super::{Call, Part};
use crate::lent::mark;
use crate::random::Random;
use crate::reading::families;

/// The files of reading that are made by a rule, all but those with three faults. Each is asked with so many ranges.
const RANGES: usize = 2;

pub fn of_files() -> Vec<Part> {
    let parts = || families::made().into_iter().flat_map(|family| family.parts);
    (0..RANGES).flat_map(|turn| parts().map(move |part| part.map(move |file| with_range(file, turn as u64)))).collect()
}

pub fn random(count: usize, seed: u64) -> Part {
    families::random(count, seed).map(move |file| with_range(file, seed))
}

/// The turn makes another range of the same file.
pub fn with_range(file: Vec<u8>, turn: u64) -> Call {
    let random = &mut Random::new(turn.wrapping_add(mark(&file) as u64));
    let frames = file.get(16..20).map_or(0, |four| u32::from_le_bytes([four[0], four[1], four[2], four[3]]));
    let [one, other] = [(); 2].map(|_| near(frames, random));
    match random.below(16) {
        0 => Call { file, first: one, count: other },
        1 => {
            Call { file, first: one, count: random.pick(&[u32::MAX, u32::MAX - one, (u32::MAX - one).wrapping_add(1)]) }
        }
        2 => Call { file, first: one, count: 0 },
        _ => Call { file, first: one.min(other), count: one.abs_diff(other) },
    }
}

/// A frame of the file, one near a border, or one near the end.
fn near(frames: u32, random: &mut Random) -> u32 {
    let frame = match random.below(4) {
        0 => frames,
        1 => 512 * random.below(frames as usize / 512 + 1) as u32,
        _ => return random.below(frames as usize + 1) as u32,
    };
    frame.saturating_add(1).saturating_sub(random.below(3) as u32)
}
