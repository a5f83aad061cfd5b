//! Re-encoding by the crate over the archive, held to document 01.
#[allow(dead_code)]
#[path = "../../../recorded/blocks.rs"]
mod blocks;
mod cases;
#[allow(dead_code)]
#[path = "../../../definitions/faults.rs"]
mod faults;
#[allow(dead_code)]
#[path = "../../../definitions/files.rs"]
mod files;
mod laws;
#[allow(dead_code)]
#[path = "../../../definitions/random.rs"]
mod random;
mod refusals;
mod room;

use blocks::{differences, file};
use ncw::{NcwError, NcwReader, PcmSpec};
use std::io::Cursor;

/// What the header of a template says that is to be encoded.
fn spec_of(template: &[u8]) -> PcmSpec {
    let word = |at: usize| u16::from_le_bytes([template[at], template[at + 1]]);
    let sample_rate = u32::from(word(12)) | u32::from(word(14)) << 16;
    PcmSpec { channels: word(8), bits_per_sample: word(10), sample_rate }
}

fn reencoded(samples: &[i32], template: &[u8]) -> Result<Vec<u8>, NcwError> {
    ncw::encode_pcm_with_template(samples, spec_of(template), template)
}

/// The number by which re-encoding refuses.
fn refused(samples: &[i32], template: &[u8]) -> Option<u32> {
    reencoded(samples, template).unwrap_err().number()
}

fn decoded(file: &[u8]) -> Vec<i32> {
    NcwReader::read(Cursor::new(file)).unwrap().decode_samples().unwrap()
}

/// Mono, 16 bits, the sample 5 at width 2: 272 bytes.
fn one_sample() -> Vec<u8> {
    file(1, 16, 1, vec![vec![differences(5, 2, &[])]]).bytes()
}
