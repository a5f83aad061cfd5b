//! Samples that a template is asked with: its own, near ones, and others.
use super::templates::Template;
use super::Call;
use crate::random::Random;
use crate::samples::{limits, nudged};
use crate::writing::lists::by_groups;

/// Samples, by channels and depth.
type Variant = fn(&[i32], u16, u16, &mut Random) -> Vec<i32>;

/// The template's own; one of them one more or less; one frame two more or less; one of them moved by a limit of a width; some moved a little; one
/// group of another kind; all of another kind; noise.
pub const VARIANTS: [Variant; 8] = [
    |own, _, _, _| own.to_vec(),
    |own, _, depth, random| {
        let by = random.pick(&[1, -1]);
        moved(own, 1, by, depth, random)
    },
    |own, channels, depth, random| {
        let by = random.pick(&[2, -2]);
        moved(own, channels, by, depth, random)
    },
    |own, _, depth, random| {
        let edge = 1 << random.below(depth.into());
        let by = random.pick(&[edge, edge - 1, -edge, 1 - edge]);
        moved(own, 1, by, depth, random)
    },
    |own, _, depth, random| nudged(own, depth, random),
    |own, channels, depth, random| {
        let size = 512 * usize::from(channels);
        let other = random.below(own.len().div_ceil(size).max(1));
        let others = by_groups(channels, depth, own.len() / usize::from(channels), random);
        own.iter().zip(&others).enumerate().map(|(k, (own, to))| if k / size == other { *to } else { *own }).collect()
    },
    |own, channels, depth, random| by_groups(channels, depth, own.len() / usize::from(channels), random),
    |own, _, depth, random| own.iter().map(|_| random.signed(depth.into())).collect(),
];

/// Those, and others that fit the template.
pub const ALL: usize = VARIANTS.len() + 1;
pub const FITTING: usize = VARIANTS.len();

pub fn call(template: &Template, variant: usize, random: &mut Random) -> Call {
    let (channels, depth) = (template.file.channels, template.file.depth);
    match VARIANTS.get(variant) {
        Some(variant) => template.call_with(&variant(&template.samples, channels, depth, random)),
        None => template.call_with(&template.others),
    }
}

/// So many samples together moved: the first, the last, those about a group's end, or any.
fn moved(own: &[i32], together: u16, by: i32, depth: u16, random: &mut Random) -> Vec<i32> {
    let (low, high) = limits(depth);
    let mut samples = own.to_vec();
    let places = samples.len() / usize::from(together);
    if places > 0 {
        let any = random.below(places);
        let at = random.pick(&[0, 1, places / 2, places - 1, places.saturating_sub(2), 511, 512, any]).min(places - 1);
        let frame = samples.chunks_exact_mut(together.into()).nth(at).expect("it is one of them");
        frame.iter_mut().for_each(|sample| *sample = (*sample + by).clamp(low, high));
    }
    samples
}
