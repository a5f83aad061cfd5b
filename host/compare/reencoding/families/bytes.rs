//! Good templates with bytes changed, cut, or with other bytes around their data.
use super::templates::Template;
use super::{good, Call, Part};
use crate::changed;
use crate::families;
use crate::picks::Picks;
use crate::random::Random;

/// Each of the templates with the samples of the good one.
fn calls(template: &Template, parts: Vec<families::Part<Vec<u8>>>) -> Vec<Part> {
    let call = template.call();
    let part = |part: families::Part<Vec<u8>>| {
        let call = call.clone();
        part.map(move |template| Call { template, ..call.clone() })
    };
    parts.into_iter().map(part).collect()
}

/// Every length of good templates, and every short length of bytes that are none.
pub fn lengths() -> Vec<Part> {
    let none = calls(&good::none(), changed::no_files());
    let cut = good::all().into_iter().flat_map(|good| calls(&good, vec![changed::cut(good.file.bytes())]));
    none.into_iter().chain(cut).collect()
}

pub fn values() -> Vec<Part> {
    good::all().iter().flat_map(|good| calls(good, vec![changed::values(&good.file)])).collect()
}

pub fn limits() -> Vec<Part> {
    good::all().iter().flat_map(|good| calls(good, changed::limits(&good.file))).collect()
}

const GAPS: [usize; 8] = [0, 1, 2, 3, 4, 8, 100, 1_000];
const TAILS: [usize; 6] = [0, 1, 9, 80, 100, 1_000];
const MARKS: [u8; 3] = [0x31, 0x30, 0x32];

/// All that is kept: bytes before the table and after the data, those of the header, both signatures; and a third signature, which is refused.
pub fn kept() -> Part {
    Part::new(GAPS.len() * TAILS.len() * MARKS.len() * 3, |k| {
        let picks = &mut Picks(k);
        let (gap, tail, mark) = (picks.pick(&GAPS), picks.pick(&TAILS), picks.pick(&MARKS));
        let random = &mut Random::new(k as u64);
        let mut template = Template::of(24, picks.pick(&[0, 5, 600]), &[(3, 1), (-7, 0)], random);
        template.file.mark = mark;
        (template.file.gap, template.file.tail) = (random.bytes(gap), random.bytes(tail));
        template.file.unknown = random.bytes(88);
        template.call()
    })
}
