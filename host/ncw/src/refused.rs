//! Refusals with their place.
use crate::boundary;
use crate::error::NcwError;
use crate::opened::bits_word;
use crate::writer::PcmSpec;
use std::error::Error;
use std::fmt;

/// A refusal, and where it was found. Group and channel count from 0, and are 0 too where the refusal concerns none.
///
/// | Refusals | Group | Channel |
/// |---|---|---|
/// | 1 of a file or a template that is too short, 2, 10 to 18, 30 to 33, 39 to 42, 50 | | |
/// | 19, 22, 34, 35, 43, 46 | named | |
/// | 1 of a group, 3, 4, 20, 21, 36, 44, 45 | named | named |
#[derive(Debug)]
pub struct Refused {
    /// Why.
    pub error: NcwError,
    /// The group of the file, or of the template.
    pub group: u32,
    /// The channel of the block in it.
    pub channel: u16,
    /// Of 36: the first value or difference that does not fit, 0 to 511, counted in its block. The difference from sample k to the
    /// next has the place k. Of any other refusal it is 0.
    pub place: u16,
}

/// Where [`decode_into`](crate::decode_into) and the others refuse a file: with room for so many bytes, 4 a sample. None where they
/// don't. It writes nothing and takes no room, and is meant to be asked after a refusal.
///
/// ```
/// use ncw::{decode_refusal, encode_pcm, PcmSpec, StereoMode};
///
/// let spec = PcmSpec { channels: 2, bits_per_sample: 16, sample_rate: 44_100 };
/// let mut file = encode_pcm(&[0; 1026], spec, StereoMode::Direct).unwrap();
/// assert!(decode_refusal(&file, 4 * 1026).is_none());
/// assert_eq!(decode_refusal(&file, 0).unwrap().number(), Some(50));
///
/// // Two groups of two blocks, 144 bytes each: the last one's signature.
/// file[132 + 3 * 144] = 0;
/// let refused = decode_refusal(&file, usize::MAX).unwrap();
/// assert_eq!((refused.number(), refused.group, refused.channel), (Some(3), 1, 1));
/// assert_eq!(refused.to_string(), "wrong block signature (group 1, channel 1)");
/// ```
pub fn decode_refusal(file: &[u8], room: usize) -> Option<Refused> {
    Refused::of(boundary::decode_refusal(file, room as u64), file)
}

/// Where [`encode_pcm_with_template`](crate::encode_pcm_with_template) refuses, and
/// [`encode_with_template_into`](crate::encode_with_template_into) with room for so many bytes. None where they don't. It writes
/// nothing and takes no room, and is meant to be asked after a refusal.
///
/// ```
/// use ncw::{encode_pcm, encode_pcm_with_template, reencode_refusal, PcmSpec, StereoMode};
///
/// let spec = PcmSpec { channels: 1, bits_per_sample: 16, sample_rate: 44_100 };
/// let template = encode_pcm(&[5; 600], spec, StereoMode::Auto).unwrap();
/// let mut samples = [5; 600];
/// samples[512 + 20] = 7;
/// assert!(encode_pcm_with_template(&samples, spec, &template).is_err());
/// let refused = reencode_refusal(&samples, spec, &template, usize::MAX).unwrap();
/// assert_eq!((refused.number(), refused.group, refused.channel, refused.place), (Some(36), 1, 0, 19));
/// assert_eq!(refused.to_string(), "value or difference doesn't fit width (group 1, channel 0, place 19)");
/// ```
pub fn reencode_refusal(samples: &[i32], spec: PcmSpec, template: &[u8], room: usize) -> Option<Refused> {
    let PcmSpec { channels, bits_per_sample, sample_rate } = spec;
    let (samples, room) = (boundary::as_bytes(samples), room as u64);
    let word = boundary::reencode_refusal(samples, channels, bits_per_sample, sample_rate, template, room);
    Refused::of(word, template)
}

impl Refused {
    /// What the archive's word says of a file, or of a template.
    fn of(word: u64, file: &[u8]) -> Option<Self> {
        let (place, channel, group) = ((word >> 8) as u16, (word >> 24) as u16, (word >> 40) as u32);
        let error = NcwError::refused(word & 0xFF, || bits_word(file, group, channel).unwrap_or_default());
        (word != 0).then_some(Refused { error, group, channel, place })
    }

    /// The number of the refusal, as [`NcwError::number`] tells it.
    pub fn number(&self) -> Option<u32> {
        self.error.number()
    }

    /// The bits word of 4.
    pub(crate) fn bits(&self) -> i16 {
        match self.error {
            NcwError::UnsupportedBitDepth(bits) => bits,
            _ => 0,
        }
    }
}

impl fmt::Display for Refused {
    fn fmt(&self, f: &mut fmt::Formatter<'_>) -> fmt::Result {
        let Refused { error, group, channel, place } = self;
        match (self.number(), group, channel) {
            (Some(19 | 22 | 34 | 35 | 43 | 46), ..) => write!(f, "{error} (group {group})"),
            (Some(4 | 20 | 21 | 44 | 45), ..) => write!(f, "{error} (group {group}, channel {channel})"),
            (Some(36), ..) => write!(f, "{error} (group {group}, channel {channel}, place {place})"),
            // 1 and 3 are said of the header too, or of the first block: both name 0 and 0.
            (_, 0, 0) => error.fmt(f),
            _ => write!(f, "{error} (group {group}, channel {channel})"),
        }
    }
}

impl Error for Refused {
    fn source(&self) -> Option<&(dyn Error + 'static)> {
        self.error.source()
    }
}

impl From<Refused> for NcwError {
    fn from(refused: Refused) -> Self {
        refused.error
    }
}
