//! The peaks of a file, beside it.
use crate::boundary;
use crate::error::NcwError;
use crate::opened::SAMPLES_PER_BLOCK;
use crate::slices::{answered, bits_in, build_peaks_into};
use std::fmt;

/// The peaks of a PCM file: of each group of 512 frames, fewer in the last, the smallest and the largest sample of each channel. What
/// fills up the last group does not count. A page that draws a waveform reads these, and not the file.
///
/// ```
/// use ncw::{encode_pcm, Peaks, PcmSpec, StereoMode};
///
/// let spec = PcmSpec { channels: 2, bits_per_sample: 16, sample_rate: 44_100 };
/// let samples: Vec<i32> = (0..600).flat_map(|k| [k, -3 * k]).collect();
/// let file = encode_pcm(&samples, spec, StereoMode::Auto).unwrap();
/// let peaks = Peaks::build(&file).unwrap();
/// assert_eq!((peaks.frames(), peaks.channels(), peaks.groups()), (600, 2, 2));
/// assert_eq!([peaks.get(0, 0), peaks.get(0, 1)], [Some((0, 511)), Some((-1_533, 0))]);
/// assert_eq!([peaks.get(1, 0), peaks.get(1, 1)], [Some((512, 599)), Some((-1_797, -1_536))]);
/// assert_eq!([peaks.get(0, 2), peaks.get(2, 0)], [None; 2]);
///
/// // The summary is kept beside the file, opened without it, and can be held to it.
/// let kept = peaks.bytes().to_vec();
/// assert_eq!(Peaks::open(&kept).unwrap(), peaks);
/// assert!(Peaks::check(&kept, &file).unwrap());
/// assert!(!Peaks::check(&kept[..kept.len() - 1], &file).unwrap());
/// ```
#[derive(Clone, PartialEq, Eq)]
pub struct Peaks {
    bytes: Vec<u8>,
    frames: u32,
    channels: u32,
    /// The smallest and the largest of each pair.
    pairs: Vec<i32>,
}

impl Peaks {
    /// The peaks of a file in memory. What decoding refuses is refused, and then a float file, by 66.
    pub fn build(file: &[u8]) -> Result<Self, NcwError> {
        // A header has 120 bytes and a block 80 or more, a pair 10 or fewer: so much room is enough for any summary of so many pairs.
        let mut bytes = vec![0; file.len() / 8];
        let length = build_peaks_into(file, &mut bytes)?;
        bytes.truncate(length);
        bytes.shrink_to_fit();
        Peaks::read(bytes)
    }

    /// The peaks that a summary holds. It is checked whole, once: a number that is cut short is refused by 60, one that is too long by
    /// 61, one over 32 bits by 62, no channels by 10, a pair whose smallest is above its largest by 64, and bytes left over by 63.
    pub fn open(summary: &[u8]) -> Result<Self, NcwError> {
        Peaks::read(summary.to_vec())
    }

    fn read(bytes: Vec<u8>) -> Result<Self, NcwError> {
        // A pair of an accepted summary takes 2 bytes or more of it, and 2 numbers here.
        let mut pairs = vec![0; bytes.len()];
        let length = answered(boundary::peaks_all(&bytes, boundary::as_bytes_mut(&mut pairs)), || None)?;
        pairs.truncate(length / 4);
        pairs.shrink_to_fit();
        let (frames, behind) = number(&bytes);
        let (channels, _) = number(behind);
        Ok(Peaks { frames, channels, pairs, bytes })
    }

    /// Whether the bytes are the summary of the file's peaks, as [`Peaks::build`] would give it. No other bytes are, so malformed
    /// ones are not either. The file may be refused, as by [`Peaks::build`].
    pub fn check(summary: &[u8], file: &[u8]) -> Result<bool, NcwError> {
        answered(boundary::peaks_check(summary, file), || bits_in(file)).map(|answer| answer == 1)
    }

    /// How many frames the file has.
    pub fn frames(&self) -> u32 {
        self.frames
    }

    /// How many channels it has.
    pub fn channels(&self) -> u32 {
        self.channels
    }

    /// How many groups it has: of 512 frames each, and fewer in the last.
    pub fn groups(&self) -> u32 {
        self.frames.div_ceil(SAMPLES_PER_BLOCK as u32)
    }

    /// The smallest and the largest sample of a group and a channel; None past the last of either.
    pub fn get(&self, group: u32, channel: u32) -> Option<(i32, i32)> {
        if group >= self.groups() || channel >= self.channels {
            return None;
        }
        let k = 2 * (group as usize * self.channels as usize + channel as usize);
        Some((*self.pairs.get(k)?, *self.pairs.get(k + 1)?))
    }

    /// All pairs, groups in order and channels within.
    pub fn pairs(&self) -> impl ExactSizeIterator<Item = (i32, i32)> + '_ {
        self.pairs.chunks_exact(2).map(|pair| (pair[0], pair[1]))
    }

    /// The summary itself, to be kept beside the file.
    pub fn bytes(&self) -> &[u8] {
        &self.bytes
    }
}

/// The number that accepted bytes begin with, and what lies behind it.
fn number(bytes: &[u8]) -> (u32, &[u8]) {
    let length = 1 + bytes.iter().take_while(|byte| **byte >= 0x80).count();
    let (number, behind) = bytes.split_at(length.min(bytes.len()));
    (number.iter().rev().fold(0, |high, byte| high << 7 | u32::from(byte & 0x7F)), behind)
}

impl fmt::Debug for Peaks {
    fn fmt(&self, f: &mut fmt::Formatter<'_>) -> fmt::Result {
        f.debug_struct("Peaks").field("frames", &self.frames).field("channels", &self.channels).finish_non_exhaustive()
    }
}
