#![doc = include_str!("../README.md")]
#![deny(missing_docs, unsafe_code)]

pub mod boundary;
mod error;
mod opened;
mod peaks;
mod pieces;
mod reader;
mod refused;
mod slices;
mod writer;

pub use error::NcwError;
pub use opened::{NcwHeader, Opened, SampleFormat, SAMPLES_PER_BLOCK};
pub use peaks::Peaks;
pub use pieces::{Pieces, SAMPLES_AT_ONCE};
pub use reader::NcwReader;
pub use refused::{decode_refusal, reencode_refusal, Refused};
pub use slices::{build_peaks_into, decode_bytes, decode_into, open, read_frames_bytes, read_frames_into, read_peak};
pub use writer::{encode_into, encode_pcm, encode_pcm_with_template, encode_with_template_into, PcmSpec, StereoMode};
