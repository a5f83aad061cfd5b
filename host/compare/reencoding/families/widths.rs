//! Every bits word; and values and differences that just fit a width, or just don't.
use super::templates::{block, Form, Template};
use super::{variants, Call, Part};
use crate::files::{Block, File};
use crate::picks::Picks;
use crate::random::Random;
use crate::writing::lists::{apart, edges_of, formed, stepped, FORMS};
use crate::writing::{DEPTHS, RATE};

const BITS_WORDS: usize = 65;
const FRAMES: [usize; 8] = [1, 2, 3, 511, 512, 513, 1_024, 1_025];

fn bits_word(picks: &mut Picks) -> i16 {
    picks.below(BITS_WORDS) as i16 - 32
}

/// Mono, direct and mid/side blocks of each bits word.
pub fn words() -> Part {
    Part::new(BITS_WORDS * 3 * DEPTHS.len() * FRAMES.len() * variants::ALL, |k| {
        let picks = &mut Picks(k);
        let bits = bits_word(picks);
        let forms = [vec![(bits, 0)], vec![(bits, 0); 2], vec![(bits, 1); 2]][picks.below(3)].clone();
        let (depth, frames, variant) = (picks.pick(&DEPTHS), picks.pick(&FRAMES), picks.below(variants::ALL));
        let random = &mut Random::new(k as u64);
        variants::call(&Template::of(depth, frames, &forms, random), variant, random)
    })
}

/// Every two bits words beside each other, with all flags.
pub fn pairs() -> Part {
    Part::new(BITS_WORDS * BITS_WORDS * 4, |k| {
        let picks = &mut Picks(k);
        let (first, second, flags) = (bits_word(picks), bits_word(picks), picks.below(4) as u16);
        let random = &mut Random::new(k as u64);
        let (depth, frames) = (random.pick(&DEPTHS), random.below(6));
        let template = Template::of(depth, frames, &[(first, flags & 1), (second, flags >> 1)], random);
        let variant = random.pick(&[0, 1, 2, variants::FITTING, variants::FITTING]);
        variants::call(&template, variant, random)
    })
}

// ---- just fitting and just not

/// Before which frame the step comes, of how many frames. Where it is the last number of frames it leads to the first padded sample, if there is one;
/// some are between two groups, where nothing is stored.
const PLACES: [(usize, usize); 22] = [
    (1, 1),
    (1, 2),
    (2, 2),
    (1, 3),
    (3, 3),
    (1, 100),
    (50, 100),
    (99, 100),
    (100, 100),
    (1, 511),
    (510, 511),
    (511, 511),
    (1, 512),
    (511, 512),
    (512, 512),
    (512, 513),
    (513, 513),
    (513, 514),
    (514, 514),
    (511, 1_024),
    (1_023, 1_024),
    (1_024, 1_024),
];

/// For each width a template of even blocks, and samples with a step or a value at its limits, or one beyond.
pub fn steps() -> Vec<Part> {
    DEPTHS.into_iter().flat_map(|depth| [differences(depth), raw(depth)]).collect()
}

fn differences(depth: u16) -> Part {
    let widths = usize::from(depth);
    Part::new(widths * 4 * PLACES.len() * FORMS, move |k| {
        let picks = &mut Picks(k);
        let width = 2 + picks.below(widths) as u16;
        let (step, place, form) = (edges_of(width)[picks.below(4)], picks.pick(&PLACES), picks.below(FORMS));
        let samples = stepped(step, (place.0 - 1, place.1));
        even(depth, width as i16, form, apart(step)[1], samples, k)
    })
}

/// The one value is before the step of the same place.
fn raw(depth: u16) -> Part {
    let widths = usize::from(depth);
    Part::new(widths * 4 * PLACES.len() * FORMS, move |k| {
        let picks = &mut Picks(k);
        let width = 1 + picks.below(widths) as u16;
        let (value, (at, frames), form) = (edges_of(width)[picks.below(4)], picks.pick(&PLACES), picks.below(FORMS));
        let mut samples = vec![0; frames];
        samples[at - 1] = value as i32;
        even(depth, -(width as i16), form, 0, samples, k)
    })
}

/// The samples in one of the forms, and a template that has one value all the time where the form has these samples, and zeros beside it.
fn even(depth: u16, bits: i16, form: usize, value: i32, list: Vec<i32>, seed: usize) -> Call {
    let random = &mut Random::new(seed as u64);
    let (frames, (channels, samples)) = (list.len(), formed(form, list));
    let flags = u16::from(form > 2);
    let stored = [vec![value], vec![value, 0], vec![0, value], vec![value, 0], vec![0, value]][form].clone();
    let mut file = File::new(channels, depth, RATE, frames as u32, random);
    let group = |random: &mut Random| stored.iter().map(|value| flat((bits, flags), *value, random)).collect();
    file.groups = (0..frames.div_ceil(512)).map(|_| group(random)).collect();
    Template::with(file, samples).call()
}

/// One value 512 times.
fn flat(form: Form, value: i32, random: &mut Random) -> Block {
    block(form, 16, &[value; 512], random)
}
