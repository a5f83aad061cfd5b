//! All single and double faults of good calls: these pin the order of checks.
use super::faults::{self, Spot};
use super::templates::Template;
use super::{good, Call, Part};
use crate::files::Places;
use crate::random::Random;

/// Ordered pairs of faults in each block, and single ones.
pub fn pairs() -> Vec<Part> {
    let spots = [
        (good::none(), 0, 0),
        (good::mono(), 0, 0),
        (good::direct(), 0, 0),
        (good::direct(), 0, 1),
        (good::mid_side(), 0, 0),
        (good::mid_side(), 0, 1),
        (good::groups(), 0, 1),
        (good::groups(), 1, 0),
        (good::groups(), 1, 1),
        (good::mono_groups(), 1, 0),
    ];
    spots.into_iter().map(|(template, group, channel)| pairs_at(template, group, channel)).collect()
}

/// The last of them are the single ones.
fn pairs_at(template: Template, group: usize, channel: usize) -> Part {
    let (call, spot, faults) = (template.call(), Spot::new(template.file.places(), group, channel), faults::all());
    let n = faults.len();
    Part::new(n * n + n, move |k| {
        let mut faulty = call.clone();
        faults[k % n](&mut faulty, &spot);
        if k < n * n {
            faults[k / n](&mut faulty, &spot);
        }
        faulty
    })
}

/// One or two faults, in any block.
pub fn spoil(call: &mut Call, places: Places, random: &mut Random) {
    let group = random.below(places.blocks.len().max(1));
    let channel = random.below(places.channels);
    let spot = Spot::new(places, group, channel);
    let faults = faults::all();
    for _ in 0..random.pick(&[1, 1, 2]) {
        random.pick(&faults)(call, &spot);
    }
}
