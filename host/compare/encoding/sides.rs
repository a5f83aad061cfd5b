//! What each side makes of a call: the Rust original, the reference, and ours by its drop-in crate.
use super::Call;
use crate::asking::{ask, Answer, Question};
use crate::encoded::encoding;
use crate::errors::number_of;
use crate::lent::Written;
use crate::located::Refused;
use crate::writing::Sampled;

/// The modes by their numbers.
pub const MODES: [ncw::StereoMode; 3] = [ncw::StereoMode::Auto, ncw::StereoMode::Direct, ncw::StereoMode::MidSide];
pub const OUR_MODES: [ours::StereoMode; 3] =
    [ours::StereoMode::Auto, ours::StereoMode::Direct, ours::StereoMode::MidSide];

/// 38 and 39 are document 01's, and come first.
pub fn original(call: &Call) -> Written {
    let mode = *MODES.get(call.mode as usize).ok_or(38_u32)?;
    let samples = call.numbers().ok_or(39_u32)?;
    let spec = ncw::PcmSpec { channels: call.channels, bits_per_sample: call.depth, sample_rate: call.rate };
    match ask(&Question::Encode(spec, mode, samples)) {
        Answer::Bytes(file) => Ok(file),
        Answer::Refused(number, _) => Err(number),
        _ => panic!("an answer to another question"),
    }
}

/// Nothing where 38 or 39 comes before.
pub fn reference(call: &Call) -> Option<Result<Vec<u8>, Refused>> {
    let samples = call.numbers()?;
    let is_mode = MODES.len() > call.mode as usize;
    is_mode.then(|| encoding(&samples, call.channels, call.depth, call.rate, call.mode))
}

/// Nothing where the crate can't be asked: it has no other modes, and no part of a sample.
pub fn drop_in(call: &Call) -> Option<Written> {
    let mode = *OUR_MODES.get(call.mode as usize)?;
    let samples = call.numbers()?;
    let spec = ours::PcmSpec { channels: call.channels, bits_per_sample: call.depth, sample_rate: call.rate };
    Some(ours::encode_pcm(&samples, spec, mode).map_err(|error| number_of(&error)))
}
