//! Encoding by the crate over the archive, held to documents 01 and 02 and to the reference for it (`host/definitions/encoded.rs`), whose own tests are
//! here.
#[allow(dead_code)]
#[path = "../../../recorded/blocks.rs"]
mod blocks;
mod cases;
#[path = "../../../definitions/encoded.rs"]
mod encoded;
#[allow(dead_code)]
#[path = "../../../definitions/files.rs"]
mod files;
#[allow(dead_code)]
#[path = "../../../definitions/located.rs"]
mod located;
#[allow(dead_code)]
#[path = "../../../definitions/misfit.rs"]
mod misfit;
#[allow(dead_code)]
#[path = "../../../definitions/random.rs"]
mod random;
mod refusals;
mod room;
mod round;
mod settings;

use ncw::{NcwError, PcmSpec, StereoMode};
use random::Random;

const DEPTHS: [u16; 4] = [8, 16, 24, 32];
const MODES: [StereoMode; 3] = [StereoMode::Auto, StereoMode::Direct, StereoMode::MidSide];

fn spec(channels: u16, bits_per_sample: u16) -> PcmSpec {
    PcmSpec { channels, bits_per_sample, sample_rate: 44_100 }
}

fn mono(samples: &[i32]) -> Vec<u8> {
    ncw::encode_pcm(samples, spec(1, 16), StereoMode::Auto).unwrap()
}

fn stereo(samples: &[i32], mode: StereoMode) -> Result<Vec<u8>, NcwError> {
    ncw::encode_pcm(samples, spec(2, 16), mode)
}

/// The file's number of four bytes at a place.
fn number(file: &[u8], at: usize) -> u32 {
    u32::from_le_bytes(file[at..at + 4].try_into().unwrap())
}

/// Frames of any width within the depth, the samples of each of one parity.
fn samples(channels: u16, depth: u16, frames: usize, random: &mut Random) -> Vec<i32> {
    let bits = random.between(2, depth.into()) as u32;
    let mut all = Vec::new();
    for _ in 0..frames {
        let odd = random.below(2) as i32;
        all.extend((0..channels).map(|_| random.signed(bits) & !1 | odd));
    }
    all
}
