//! Float mid/side, raw at 32 bits. No encoder writes such files, so they are laid out by hand.
use crate::blocks::{file, flagged, raw};
use crate::decoding::{agree_by, times};
use crate::files::Block;
use crate::input::{Input, RATE, SEED};
use crate::nans::{is_nan, settled};
use crate::random::Random;
use crate::rows::{Form, Row};
use crate::Work;
use ncw::{PcmSpec, SAMPLES_PER_BLOCK};

/// A NaN's bits are the machine's in the original.
pub const WORK: Work = Work {
    rows: crate::rows::of_floats,
    input,
    sides: "Rust | lent | drop-in | copy",
    agree: |input| agree_by(input, |original, ours| original == ours || is_nan(*original) && is_nan(*ours)),
    times,
};

fn input(row: &Row) -> Input {
    let mut random = Random::new(SEED);
    let pairs: Vec<[i32; 2]> = (0..row.seconds * RATE as usize).map(|_| pair(row.form, &mut random)).collect();
    let samples = pairs.iter().flat_map(|[mid, side]| {
        let [m, s] = [*mid, *side].map(|bits| f32::from_bits(bits as u32));
        [m + s, m - s].map(|result| settled(*mid, *side, result))
    });
    let spec = PcmSpec { channels: row.form.channels(), bits_per_sample: row.depth, sample_rate: RATE };
    let groups = pairs.chunks(SAMPLES_PER_BLOCK).map(|pairs| [0, 1].map(|c| block(pairs, c)).into());
    let file = file(spec.channels, row.depth, pairs.len() as u32, groups.collect()).bytes();
    Input { samples: samples.collect(), spec, mode: row.form.mode(), file }
}

fn block(pairs: &[[i32; 2]], channel: usize) -> Block {
    flagged(3, raw(32, &pairs.iter().map(|pair| pair[channel]).collect::<Vec<_>>()))
}

/// Mid and side between −1 and 1. Where there are NaNs half the frames have one, as mid, as side or as both.
fn pair(form: Form, random: &mut Random) -> [i32; 2] {
    let mut number = || (random.signed(24) as f32 / (1 << 23) as f32).to_bits() as i32;
    let [mid, side] = [number(), number()];
    if form == Form::Floats || random.once_in(2) {
        return [mid, side];
    }
    let mut nan = || random.signed(32) | 0x7F80_0001;
    match [nan(), nan()] {
        [first, _] if first & 6 == 0 => [first, side],
        [first, _] if first & 6 == 2 => [mid, first],
        both => both,
    }
}
