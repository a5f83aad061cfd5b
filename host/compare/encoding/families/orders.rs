//! Everything that can be wrong with a call, in every combination: this pins the order of refusals.
use super::{formats, Call, Format, Part};
use crate::picks::Picks;

const MODES: [u32; 2] = [0, 2];

type Fault = fn(&mut Call);

/// 38, 39, 30 by the rate, by channels, by the depth, 31, 32 but at 32 bits, in MidSide 35 of two channels. Without two
/// channels MidSide is 34 by itself.
const FAULTS: [Fault; 8] = [
    |call| call.mode = 3,
    |call| call.samples.truncate(call.samples.len() - 1),
    |call| call.rate = 0,
    |call| call.channels = 9,
    |call| call.depth += 1,
    |call| call.samples.truncate(call.samples.len() - 4),
    |call| call.samples[..4].copy_from_slice(&i32::MAX.to_le_bytes()),
    |call| call.samples[4] ^= 1,
];

/// Three frames, so that there is a sample left.
pub fn all() -> Part {
    let formats: Vec<Format> = formats().collect();
    Part::new((1 << FAULTS.len()) * formats.len() * MODES.len(), move |k| {
        let picks = &mut Picks(k);
        let (chosen, (channels, depth)) = (picks.below(1 << FAULTS.len()), picks.pick(&formats));
        let mut call = Call::new(&vec![2; 3 * usize::from(channels)], channels, depth, picks.pick(&MODES));
        let faults = FAULTS.iter().enumerate().filter(|(fault, _)| chosen >> fault & 1 == 1);
        faults.for_each(|(_, fault)| fault(&mut call));
        call
    })
}
