//! Frames of equal parity but for one, with mid/side in all groups, in some, in none.
use super::templates::Template;
use super::Part;
use crate::picks::Picks;
use crate::random::Random;
use crate::writing::lists::{add, place, ADDED, PLACES};
use crate::writing::DEPTHS;

const FRAMES: [usize; 7] = [1, 2, 100, 512, 513, 1_025, 1_100];

/// Whether the first, the second and the third group are mid/side.
const MIDS: [[u16; 3]; 4] = [[1, 1, 1], [1, 0, 1], [0, 1, 0], [0, 0, 0]];

/// Wide enough for whatever one sample becomes.
const WORDS: [i16; 4] = [-32, 32, -25, 26];

pub fn all() -> Part {
    Part::new(FRAMES.len() * PLACES * ADDED.len() * MIDS.len() * WORDS.len() * DEPTHS.len(), |k| {
        let picks = &mut Picks(k);
        let (frames, at, added) = (picks.pick(&FRAMES), picks.below(PLACES), picks.pick(&ADDED));
        let (mids, bits, depth) = (picks.pick(&MIDS), picks.pick(&WORDS), picks.pick(&DEPTHS));
        let random = &mut Random::new(k as u64);
        let second = random.below(2) as u16;
        let mut template = Template::new(depth, frames, |group| vec![(bits, mids[group]), (bits, second)], random);
        add(&mut template.samples, place(at, frames), added);
        template.call()
    })
}
