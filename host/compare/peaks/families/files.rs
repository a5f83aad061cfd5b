//! Files of every form, each beside its own summary, changed ones, and others.
use super::drawn::{beside, with_summary, Held};
use super::{Call, Part};
use crate::blocks::{filled, flagged};
use crate::changed;
use crate::families::Part as PartOf;
use crate::files::File;
use crate::picks::Picks;
use crate::random::Random;
use crate::reading::families::{any_values, places, DEPTHS};

const FRAMES: [u32; 11] = [0, 1, 2, 511, 512, 513, 1_023, 1_024, 1_025, 1_536, 1_600];

/// Channels, and the flags of the first block of each group: stereo stands twice, the second time as mid/side, and some as float files too.
const FORMS: [(u16, u16); 10] = [(1, 0), (2, 0), (2, 1), (3, 0), (4, 0), (5, 0), (1, 2), (2, 2), (2, 3), (5, 2)];

/// Bits words of so many kinds: narrow and wide differences, narrow and wide raw ones, the depth's.
const BITS: [[i16; 2]; 5] = [[1, 4], [5, 32], [-4, -1], [-32, -5], [0, 0]];

fn of_form(picks: &mut Picks) -> File {
    let (frames, (channels, flags)) = (picks.pick(&FRAMES), picks.pick(&FORMS));
    let ([low, high], depth) = (picks.pick(&BITS), picks.pick(&DEPTHS));
    let random = &mut Random::new(u64::from(frames) + u64::from(flags));
    let block = || {
        let bits = random.between(low.into(), high.into()) as i16;
        flagged(flags, any_values(bits, depth, random))
    };
    File { depth, ..filled(channels, frames, block) }
}

/// With each kind of bytes beside it.
pub fn forms() -> Vec<Part> {
    let count = Held::ALL.len() * FRAMES.len() * FORMS.len() * BITS.len() * DEPTHS.len();
    vec![Part::new(count, |k| {
        let picks = &mut Picks(k);
        let held = picks.pick(&Held::ALL);
        beside(of_form(picks).bytes(), held, &mut Random::new(k as u64))
    })]
}

/// Every bits word, at every depth.
pub fn widths() -> Vec<Part> {
    let frames = [1, 512, 700];
    vec![Part::new(65 * DEPTHS.len() * 6 * frames.len(), move |k| {
        let (picks, random) = (&mut Picks(k), &mut Random::new(k as u64));
        let (bits, depth) = (picks.below(65) as i16 - 32, picks.pick(&DEPTHS));
        let ((channels, flags), frames) = (picks.pick(&FORMS[..6]), picks.pick(&frames));
        let file = File { depth, ..filled(channels, frames, || flagged(flags, any_values(bits, depth, random))) };
        with_summary(file.bytes(), k as u64)
    })]
}

/// Files whose summaries are changed in every byte, cut at every length, and made longer.
const SHORT: [(u16, u32, u16); 6] = [(1, 0, 0), (1, 3, 0), (2, 513, 0), (2, 520, 1), (3, 600, 0), (5, 1_030, 0)];

pub fn held() -> Vec<Part> {
    let of = |(channels, frames, flags): (u16, u32, u16)| {
        let random = &mut Random::new(frames.into());
        let file = filled(channels, frames, || flagged(flags, any_values(9, 16, random))).bytes();
        let own = beside(file, Held::Own, random);
        let bytes = own.summary.clone();
        let longer = PartOf::new(256 * 3, move |k| [&bytes[..], &vec![k as u8; 1 + k / 256]].concat());
        let others = [changed::cut(own.summary.clone()), changed::each_byte(own.summary.clone()), longer];
        others.map(move |part| {
            let own = own.clone();
            part.map(move |summary| Call { summary, ..own.clone() })
        })
    };
    SHORT.into_iter().flat_map(of).collect()
}

/// One or two damages in any blocks of four groups.
pub fn damaged() -> Vec<Part> {
    let of = |channels: u16| {
        Part::new(places::count(channels), move |k| with_summary(places::with_two(channels, &mut Picks(k)), k as u64))
    };
    places::CHANNELS.map(of).into()
}
