//! The eleven calls of the host boundary, as they are.
pub use ours::boundary::{decode, decode_refusal, encode, open, read_frames, reencode, reencode_refusal};
pub use ours::boundary::{peak, peaks, peaks_all, peaks_check};
