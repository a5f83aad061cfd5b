//! Templates that the encoder made.
use super::variants::VARIANTS;
use super::{Call, Part};
use crate::lent::as_bytes;
use crate::picks::Picks;
use crate::random::Random;
use crate::writing::lists::by_groups;
use crate::writing::{DEPTHS, RATE};
use ncw::{encode_pcm, PcmSpec, StereoMode};

const FORMS: [(u16, StereoMode); 4] =
    [(1, StereoMode::Auto), (2, StereoMode::Auto), (2, StereoMode::Direct), (2, StereoMode::MidSide)];
const FRAMES: [usize; 13] = [0, 1, 2, 3, 40, 511, 512, 513, 1_023, 1_024, 1_025, 1_100, 1_537];
const DRAWINGS: usize = 6;

pub fn all() -> Part {
    Part::new(FORMS.len() * FRAMES.len() * DEPTHS.len() * VARIANTS.len() * DRAWINGS, |k| {
        let picks = &mut Picks(k);
        let ((channels, mode), frames) = (picks.pick(&FORMS), picks.pick(&FRAMES));
        let (depth, variant) = (picks.pick(&DEPTHS), picks.pick(&VARIANTS));
        let random = &mut Random::new(k as u64);
        let mut own = by_groups(channels, depth, frames, random);
        if mode == StereoMode::MidSide {
            own.chunks_exact_mut(2).for_each(|frame| frame[1] ^= (frame[0] ^ frame[1]) & 1);
        }
        let samples = variant(&own, channels, depth, random);
        Call {
            samples: as_bytes(&samples),
            channels,
            depth,
            rate: RATE,
            template: encoded(&own, channels, depth, mode),
        }
    })
}

pub fn encoded(samples: &[i32], channels: u16, depth: u16, mode: StereoMode) -> Vec<u8> {
    let spec = PcmSpec { channels, bits_per_sample: depth, sample_rate: RATE };
    encode_pcm(samples, spec, mode).expect("samples within their depth")
}
