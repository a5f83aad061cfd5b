//! What encoding answers. Document 02 takes settings that the Rust original refuses by 30: there the reference stands in for it. What is then written
//! the original reads.
use crate::asking::{ask, Answer, Question};
use crate::encoded;
use crate::located::Refused;
use ncw::{PcmSpec, StereoMode};

/// What the reference says. It has to be what the original says, unless that refuses by 30 what document 02 takes: then the reference does not, and the
/// original has to read a file as these samples.
pub fn encoding(spec: PcmSpec, mode: StereoMode, samples: &[i32]) -> Result<Vec<u8>, Refused> {
    let PcmSpec { channels, bits_per_sample: depth, sample_rate: rate } = spec;
    let said = encoded::encoding(samples, channels, depth, rate, mode as u32);
    let of_reference = said.clone().map_err(|refused| refused.number);
    match (of_original(spec, mode, samples), &of_reference) {
        (Err(30), Ok(file)) if is_taken(spec) => assert!(is_read_as(file, samples), "the original reads it otherwise"),
        (Err(30), Err(number)) if is_taken(spec) => assert!(*number != 30, "30 of what document 02 takes"),
        (of_original, _) => assert!(of_original == of_reference, "what the original answers, and the reference"),
    }
    said
}

/// Document 02's limits, without those of the original.
fn is_taken(spec: PcmSpec) -> bool {
    let within = |most, depths: &[u16]| (1..=most).contains(&spec.channels) && depths.contains(&spec.bits_per_sample);
    within(8, &[8, 16, 24, 32]) && !within(2, &[16, 24]) && spec.sample_rate != 0
}

fn of_original(spec: PcmSpec, mode: StereoMode, samples: &[i32]) -> Result<Vec<u8>, u32> {
    match ask(&Question::Encode(spec, mode, samples.to_vec())) {
        Answer::Bytes(file) => Ok(file),
        Answer::Refused(number, _) => Err(number),
        _ => panic!("an answer to another question"),
    }
}

fn is_read_as(file: &[u8], samples: &[i32]) -> bool {
    matches!(ask(&Question::Decode(file.to_vec())), Answer::Samples(read) if read == samples)
}
