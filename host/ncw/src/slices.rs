//! Opening and decoding of lent bytes, into lent room.
use crate::boundary;
use crate::error::NcwError;
use crate::opened::bits_beyond;
use crate::refused::decode_refusal;

/// Opens a file in memory: how many bytes its samples take, 4 a sample.
///
/// ```
/// assert_eq!(ncw::open(&[]).unwrap_err().number(), Some(1));
/// ```
pub fn open(file: &[u8]) -> Result<usize, NcwError> {
    answered(boundary::open(file), || None)
}

/// Decodes a file in memory into room that the caller lends: how many samples were written, from the first on. What lies after
/// them stays, and where it refuses nothing is changed. Too little room is refusal 50, and comes after all others.
///
/// ```
/// let mut room = [7; 4];
/// assert_eq!(ncw::decode_into(&[], &mut room).unwrap_err().number(), Some(1));
/// assert_eq!(room, [7; 4]);
/// ```
pub fn decode_into(file: &[u8], samples: &mut [i32]) -> Result<usize, NcwError> {
    decode_bytes(file, boundary::as_bytes_mut(samples)).map(|bytes| bytes / 4)
}

/// The same with room that is counted in bytes, 4 a sample with the lowest first: how many bytes were written.
///
/// ```
/// let mut room = [7; 4];
/// assert_eq!(ncw::decode_bytes(&[], &mut room).unwrap_err().number(), Some(1));
/// assert_eq!(room, [7; 4]);
/// ```
pub fn decode_bytes(file: &[u8], samples: &mut [u8]) -> Result<usize, NcwError> {
    answered(boundary::decode(file, samples), || Some(decode_refusal(file, samples.len())?.bits()))
}

/// Reads `count` frames of a file in memory, from the frame `first` on, into room that the caller lends: how many samples were
/// written, from the first on. They are those that decoding the whole file would put there. A group of 512 frames that has none of
/// these is not looked at, so damage in it is not refused; one that has any is checked whole. Of the file's first block every call
/// looks at the signature and the flags.
///
/// Frames past the file's last are refusal 51, before any group is looked at; too little room is refusal 50, after all others. What
/// lies after the samples stays, and where it refuses nothing is changed.
///
/// ```
/// use ncw::{encode_pcm, read_frames_into, PcmSpec, StereoMode};
///
/// let spec = PcmSpec { channels: 2, bits_per_sample: 16, sample_rate: 44_100 };
/// let samples: Vec<i32> = (0..2_000).collect();
/// let file = encode_pcm(&samples, spec, StereoMode::Auto).unwrap();
/// let mut room = [-1; 7];
/// assert_eq!(read_frames_into(&file, 511, 3, &mut room).unwrap(), 6);
/// assert_eq!(room, [1_022, 1_023, 1_024, 1_025, 1_026, 1_027, -1]);
/// assert_eq!(read_frames_into(&file, 998, 3, &mut room).unwrap_err().number(), Some(51));
/// ```
pub fn read_frames_into(file: &[u8], first: u32, count: u32, samples: &mut [i32]) -> Result<usize, NcwError> {
    read_frames_bytes(file, first, count, boundary::as_bytes_mut(samples)).map(|bytes| bytes / 4)
}

/// The same with room that is counted in bytes, 4 a sample with the lowest first: how many bytes were written.
///
/// ```
/// let mut room = [7; 4];
/// assert_eq!(ncw::read_frames_bytes(&[], 0, 0, &mut room).unwrap_err().number(), Some(1));
/// assert_eq!(room, [7; 4]);
/// ```
pub fn read_frames_bytes(file: &[u8], first: u32, count: u32, samples: &mut [u8]) -> Result<usize, NcwError> {
    let answer = boundary::read_frames(file, first, count, samples);
    answered(answer, || bits_beyond(file, first, count))
}

/// Builds the summary of a file's peaks into room that the caller lends: how many bytes were written, from the first on. What lies
/// after them stays, and where it refuses nothing is changed. Refused are what [`decode_into`] refuses, then a float file by 66, and
/// last of all too little room by 50.
///
/// Ten bytes for each group and channel, and ten more, are always enough; with less room the file's groups are gone over twice, the
/// first time to see how long the summary is.
///
/// ```
/// use ncw::{build_peaks_into, encode_pcm, PcmSpec, StereoMode};
///
/// let spec = PcmSpec { channels: 1, bits_per_sample: 16, sample_rate: 44_100 };
/// let file = encode_pcm(&[3, -1, 4], spec, StereoMode::Auto).unwrap();
/// let mut room = [7; 20];
/// assert_eq!(build_peaks_into(&file, &mut room).unwrap(), 4);
/// assert_eq!(room[..5], [3, 1, 1, 8, 7]);
/// assert_eq!(build_peaks_into(&file, &mut room[..3]).unwrap_err().number(), Some(50));
/// ```
pub fn build_peaks_into(file: &[u8], summary: &mut [u8]) -> Result<usize, NcwError> {
    answered(boundary::peaks(file, summary), || bits_in(file))
}

/// Reads of a summary of peaks the smallest and the largest sample of a group and a channel. The whole summary is checked first, so
/// for more than one pair [`Peaks`](crate::Peaks) is better than many calls. Past the last group or channel is refusal 67.
///
/// ```
/// assert_eq!(ncw::read_peak(&[3, 1, 1, 8], 0, 0).unwrap(), (-1, 4));
/// assert_eq!(ncw::read_peak(&[3, 1, 1, 8], 0, 1).unwrap_err().number(), Some(67));
/// assert_eq!(ncw::read_peak(&[3, 1, 8, 1], 0, 0).unwrap_err().number(), Some(64));
/// ```
pub fn read_peak(summary: &[u8], group: u32, channel: u32) -> Result<(i32, i32), NcwError> {
    let mut pair = [0; 2];
    answered(boundary::peak(summary, group, channel, boundary::as_bytes_mut(&mut pair)), || None)?;
    Ok((pair[0], pair[1]))
}

/// The bits word of 4, of a file that is refused so.
pub(crate) fn bits_in(file: &[u8]) -> Option<i16> {
    Some(decode_refusal(file, usize::MAX)?.bits())
}

/// The length that a call answered, or its refusal. What `bits` says is asked for 4 alone: the bits word.
pub(crate) fn answered(answer: u64, bits: impl FnOnce() -> Option<i16>) -> Result<usize, NcwError> {
    match answer.checked_sub(boundary::REFUSED) {
        None => Ok(answer as usize),
        Some(number) => Err(NcwError::refused(number, || bits().unwrap_or_default())),
    }
}
