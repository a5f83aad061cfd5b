//! Encoding and re-encoding by their original names, and into lent room.
use crate::boundary;
use crate::error::NcwError;
use crate::opened::SAMPLES_PER_BLOCK;
use crate::refused::reencode_refusal;
use crate::slices::answered;

/// How the channels are written: as they are, or where there are two as mid/side.
#[derive(Clone, Copy, Debug, PartialEq, Eq)]
pub enum StereoMode {
    /// Each group of two channels as mid/side where that can be undone exactly and takes fewer bytes, and any other as it is.
    Auto,
    /// Every group as it is.
    Direct,
    /// Every group as mid/side. Refused where the samples of a frame differ in parity, and where there are not two channels.
    MidSide,
}

impl StereoMode {
    /// The mode's number in document 01.
    fn number(self) -> u32 {
        match self {
            StereoMode::Auto => 0,
            StereoMode::Direct => 1,
            StereoMode::MidSide => 2,
        }
    }
}

/// What is to be encoded or re-encoded. Encoding takes 1 to 8 channels and 8, 16, 24 or 32 bits, re-encoding 1 or 2 channels and 16
/// or 24 bits. Other settings are refusal 30, and so is a rate of 0.
#[derive(Clone, Copy, Debug)]
pub struct PcmSpec {
    /// How many samples a frame has.
    pub channels: u16,
    /// The depth.
    pub bits_per_sample: u16,
    /// Frames in a second.
    pub sample_rate: u32,
}

/// Encodes samples, frame by frame and each frame's in the order of channels, to a new file.
///
/// ```
/// use ncw::{encode_pcm, PcmSpec, StereoMode};
///
/// let spec = PcmSpec { channels: 2, bits_per_sample: 16, sample_rate: 44_100 };
/// assert_eq!(encode_pcm(&[3, 5], spec, StereoMode::MidSide).unwrap().len(), 416);
/// let refused = encode_pcm(&[3, 4], spec, StereoMode::MidSide).unwrap_err();
/// assert_eq!((refused.number(), refused.to_string()), (Some(35), "parity differs".to_string()));
/// ```
pub fn encode_pcm(samples: &[i32], spec: PcmSpec, mode: StereoMode) -> Result<Vec<u8>, NcwError> {
    let mut file = vec![0; longest(samples.len(), spec)];
    let length = encode_into(samples, spec, mode, &mut file)?;
    file.truncate(length);
    file.shrink_to_fit();
    Ok(file)
}

/// The same into room that the caller lends: how many bytes were written, from the first on. What lies after them stays, and
/// where it refuses nothing is changed. Too little room is refusal 50, and comes after all others.
///
/// ```
/// use ncw::{encode_into, PcmSpec, StereoMode};
///
/// let spec = PcmSpec { channels: 2, bits_per_sample: 16, sample_rate: 44_100 };
/// let mut room = [7; 125];
/// assert_eq!(encode_into(&[], spec, StereoMode::Auto, &mut room).unwrap(), 124);
/// assert_eq!(room[124], 7);
/// assert_eq!(encode_into(&[], spec, StereoMode::Auto, &mut room[..123]).unwrap_err().number(), Some(50));
/// ```
pub fn encode_into(samples: &[i32], spec: PcmSpec, mode: StereoMode, file: &mut [u8]) -> Result<usize, NcwError> {
    let PcmSpec { channels, bits_per_sample, sample_rate } = spec;
    let samples = boundary::as_bytes(samples);
    answered(boundary::encode(samples, channels, bits_per_sample, sample_rate, mode.number(), file), || None)
}

/// Encodes samples as the file `template` is encoded. Every byte is the template's, but for what the samples determine: packed values,
/// and the base of blocks of differences. What lies after a channel's last sample in its block stays.
///
/// The template has the channels, the depth, the rate and the frames of the samples. Values and differences that don't fit the width
/// of its block are refused; none is changed to fit. The file decodes to the samples, and may be the template of others just as well.
///
/// ```
/// use ncw::{encode_pcm, encode_pcm_with_template, PcmSpec, StereoMode};
///
/// let spec = PcmSpec { channels: 1, bits_per_sample: 16, sample_rate: 44_100 };
/// let mut template = encode_pcm(&[5], spec, StereoMode::Auto).unwrap();
/// template[100] = 77;
/// let file = encode_pcm_with_template(&[4], spec, &template).unwrap();
/// assert_eq!((file.len(), file[100], file[132]), (272, 77, 4));
/// let refused = encode_pcm_with_template(&[3], spec, &template).unwrap_err();
/// assert_eq!((refused.number(), refused.to_string()), (Some(36), "value or difference doesn't fit width".to_string()));
/// ```
pub fn encode_pcm_with_template(samples: &[i32], spec: PcmSpec, template: &[u8]) -> Result<Vec<u8>, NcwError> {
    let mut file = vec![0; template.len()];
    encode_with_template_into(samples, spec, template, &mut file)?;
    Ok(file)
}

/// The same into room that the caller lends: how many bytes were written, from the first on, which is the template's length. What
/// lies after them stays, and where it refuses nothing is changed. Too little room is refusal 50, and comes after all others.
///
/// ```
/// use ncw::{encode_pcm, encode_with_template_into, PcmSpec, StereoMode};
///
/// let spec = PcmSpec { channels: 1, bits_per_sample: 16, sample_rate: 44_100 };
/// let template = encode_pcm(&[5], spec, StereoMode::Auto).unwrap();
/// let mut room = [7; 273];
/// assert_eq!(encode_with_template_into(&[4], spec, &template, &mut room).unwrap(), 272);
/// assert_eq!(room[272], 7);
/// assert_eq!(encode_with_template_into(&[4], spec, &template, &mut room[..271]).unwrap_err().number(), Some(50));
/// ```
pub fn encode_with_template_into(
    samples: &[i32],
    spec: PcmSpec,
    template: &[u8],
    file: &mut [u8],
) -> Result<usize, NcwError> {
    let PcmSpec { channels, bits_per_sample, sample_rate } = spec;
    let bytes = boundary::as_bytes(samples);
    let answer = boundary::reencode(bytes, channels, bits_per_sample, sample_rate, template, file);
    answered(answer, || Some(reencode_refusal(samples, spec, template, file.len())?.bits()))
}

/// The most bytes that a file of so many samples has: every block raw. Settings that are refused need no room, and data of more
/// than 32 bits are refused.
fn longest(samples: usize, spec: PcmSpec) -> usize {
    if !matches!((spec.channels, spec.bits_per_sample), (1..=8, 8 | 16 | 24 | 32)) {
        return 0;
    }
    let groups = samples.div_ceil(SAMPLES_PER_BLOCK * usize::from(spec.channels));
    let group = usize::from(spec.channels) * (16 + SAMPLES_PER_BLOCK / 8 * usize::from(spec.bits_per_sample));
    124 + 4 * groups + (groups * group).min(u32::MAX as usize)
}

#[cfg(test)]
mod tests {
    use super::*;

    fn room(samples: usize, channels: u16, bits_per_sample: u16) -> usize {
        longest(samples, PcmSpec { channels, bits_per_sample, sample_rate: 1 })
    }

    #[test]
    fn room_for_the_longest_file() {
        assert_eq!([0, 1, 512, 513].map(|n| room(n, 1, 16)), [124, 1168, 1168, 2212]);
        assert_eq!([0, 1, 2, 1024, 1025].map(|n| room(n, 2, 24)), [124, 3232, 3232, 3232, 6340]);
        assert_eq!([0, 8, 4096, 4104].map(|n| room(n, 8, 32)), [124, 16_640, 16_640, 33_156]);
        assert_eq!([8, 16, 24, 32].map(|depth| room(3, 3, depth)), [1712, 3248, 4784, 6320]);
    }

    /// The most samples that memory can have, of any settings: no sum is too large, and only what is refused gets no room.
    #[test]
    fn room_of_absurd_calls() {
        let most = isize::MAX as usize / 4;
        for (channels, depth) in
            (0..=10).chain([u16::MAX]).flat_map(|c| (0..=40).chain([u16::MAX]).map(move |d| (c, d)))
        {
            let accepted = (1..=8).contains(&channels) && [8, 16, 24, 32].contains(&depth);
            let room = room(most, channels, depth);
            assert_eq!((room > 1 << 32, room > 0), (accepted, accepted), "{channels} channels, depth {depth}");
        }
    }
}
