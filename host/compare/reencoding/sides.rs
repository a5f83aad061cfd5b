//! What either side makes of a call: the Rust original, and ours by its drop-in crate.
use super::Call;
use crate::asking::{ask, Answer, Question};
use crate::errors::refused;
use crate::input::Refused;
use crate::writing::Sampled;

/// What is written, or the refusal.
pub type Worded = Result<Vec<u8>, Refused>;

/// 39 is document 01's, and comes first.
pub fn original(call: &Call) -> Worded {
    let samples = call.numbers().ok_or((39, 0))?;
    match ask(&Question::Reencode(call.spec(), samples, call.template.clone())) {
        Answer::Bytes(file) => Ok(file),
        Answer::Refused(number, word) => Err((number, word)),
        _ => panic!("an answer to another question"),
    }
}

/// Nothing where the crate can't be asked: it has no part of a sample.
pub fn drop_in(call: &Call) -> Option<Worded> {
    let samples = call.numbers()?;
    Some(ours::encode_pcm_with_template(&samples, spec_of(call), &call.template).map_err(refused))
}

/// Where it refuses, if it can be asked.
pub fn refusal_of_drop_in(call: &Call) -> Option<Option<ours::Refused>> {
    let samples = call.numbers()?;
    Some(ours::reencode_refusal(&samples, spec_of(call), &call.template, usize::MAX))
}

fn spec_of(call: &Call) -> ours::PcmSpec {
    ours::PcmSpec { channels: call.channels, bits_per_sample: call.depth, sample_rate: call.rate }
}
