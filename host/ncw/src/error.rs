//! Refusals, by the names of the original and by number.
use std::error::Error;
use std::fmt;
use std::io;

/// Why a file was not opened or not decoded, samples were not encoded or not re-encoded, or peaks were not built or not read.
/// [`Refused`](crate::Refused) tells where a file was not decoded or samples were not re-encoded.
#[derive(Debug)]
pub enum NcwError {
    /// The input or the template ends too soon (refusal 1, of the kind [`io::ErrorKind::UnexpectedEof`]), or reading the input
    /// failed.
    Io(io::Error),
    /// The file or the template does not begin as an NCW file (refusal 2).
    InvalidFileSignature,
    /// A block does not begin as a block (refusal 3).
    InvalidBlockSignature,
    /// Any other refusal, in words; [`NcwError::number`] tells them apart. Words without a number say that there was not enough
    /// memory for the samples.
    InvalidHeader(&'static str),
    /// A bits word beyond 32 either way (refusal 4): the word.
    UnsupportedBitDepth(i16),
}

/// Every refusal of reading, of writing and of peaks.
const REFUSALS: [(u32, &str); 43] = [
    (1, "the input ends too soon"),
    (2, "wrong file signature"),
    (3, "wrong block signature"),
    (4, "bits word beyond 32 either way"),
    (10, "zero channels"),
    (11, "depth not 8, 16, 24 or 32"),
    (12, "zero rate"),
    (13, "table offset under 120"),
    (14, "data offset under table offset"),
    (15, "wrong table length"),
    (16, "last entry is not the data size"),
    (17, "zero frames with data"),
    (18, "first entry not 0"),
    (19, "an entry's end past the data size, before its start, or under 80 bytes a channel after it"),
    (20, "float bit differs from the file's first block"),
    (21, "mid/side without two channels"),
    (22, "bytes left in a group"),
    (30, "writer: channels or depth that it does not take, or zero rate"),
    (31, "incomplete frame"),
    (32, "value outside depth"),
    (33, "over 4,294,967,295 frames"),
    (34, "mid/side without stereo"),
    (35, "parity differs"),
    (36, "value or difference doesn't fit width"),
    (37, "data size over 32 bits"),
    (38, "unknown mode"),
    (39, "sample bytes not a multiple of 4"),
    (40, "the template's channels, depth, rate or frames differ from the call's"),
    (41, "wrong bounds of the template's table or data"),
    (42, "the template's offsets not rising from 0 to the data size"),
    (43, "template group under 12 bytes"),
    (44, "template bits 0 or 1"),
    (45, "template flags above 1"),
    (46, "bytes left in a template group"),
    (50, "lent output too short"),
    (51, "first frame plus count over the file's frames"),
    (60, "a number of the summary is cut short"),
    (61, "a number of the summary ends with a byte of zero after others"),
    (62, "a number of the summary over 32 bits"),
    (63, "bytes left over after the summary"),
    (64, "smallest above largest"),
    (66, "a float file has no summary of peaks"),
    (67, "past the summary's last group or channel"),
];

/// What no number stands for.
const UNKNOWN: &str = "refused by a number that is not known here";
const NO_MEMORY: &str = "not enough memory for the samples";

impl NcwError {
    /// The number of the refusal. None where it is not the input that was refused: reading failed, or there was not enough memory.
    ///
    /// An input that ends too soon is 1, whether the file says so by its numbers or the reader by an error of the kind
    /// [`io::ErrorKind::UnexpectedEof`].
    ///
    /// ```
    /// use std::io::{Error, ErrorKind};
    ///
    /// assert_eq!(ncw::open(b"RIFF").unwrap_err().number(), Some(1));
    /// assert_eq!(ncw::open(&[0; 120]).unwrap_err().number(), Some(2));
    /// assert_eq!(ncw::NcwError::from(Error::from(ErrorKind::NotFound)).number(), None);
    /// ```
    pub fn number(&self) -> Option<u32> {
        match self {
            NcwError::Io(error) => (error.kind() == io::ErrorKind::UnexpectedEof).then_some(1),
            NcwError::InvalidFileSignature => Some(2),
            NcwError::InvalidBlockSignature => Some(3),
            NcwError::UnsupportedBitDepth(_) => Some(4),
            NcwError::InvalidHeader(words) => {
                REFUSALS.iter().find(|refusal| refusal.1 == *words).map(|refusal| refusal.0)
            }
        }
    }

    /// The refusal of a number; `bits` gives the bits word that 4 carries.
    pub(crate) fn refused(number: u64, bits: impl FnOnce() -> i16) -> Self {
        match number {
            1 => NcwError::Io(io::Error::new(io::ErrorKind::UnexpectedEof, words(1))),
            2 => NcwError::InvalidFileSignature,
            3 => NcwError::InvalidBlockSignature,
            4 => NcwError::UnsupportedBitDepth(bits()),
            _ => NcwError::InvalidHeader(words(number)),
        }
    }

    pub(crate) fn no_memory() -> Self {
        NcwError::InvalidHeader(NO_MEMORY)
    }
}

fn words(number: u64) -> &'static str {
    REFUSALS.iter().find(|refusal| u64::from(refusal.0) == number).map_or(UNKNOWN, |refusal| refusal.1)
}

impl fmt::Display for NcwError {
    fn fmt(&self, f: &mut fmt::Formatter<'_>) -> fmt::Result {
        match self {
            NcwError::Io(error) => error.fmt(f),
            NcwError::InvalidFileSignature => f.write_str(words(2)),
            NcwError::InvalidBlockSignature => f.write_str(words(3)),
            NcwError::UnsupportedBitDepth(bits) => write!(f, "{}: {bits}", words(4)),
            NcwError::InvalidHeader(words) => f.write_str(words),
        }
    }
}

impl Error for NcwError {
    fn source(&self) -> Option<&(dyn Error + 'static)> {
        match self {
            NcwError::Io(error) => Some(error),
            _ => None,
        }
    }
}

impl From<io::Error> for NcwError {
    fn from(error: io::Error) -> Self {
        NcwError::Io(error)
    }
}

#[cfg(test)]
mod tests {
    use super::*;

    #[test]
    fn every_number_and_its_words() {
        for (number, words) in REFUSALS {
            let refused = NcwError::refused(number.into(), || 33);
            assert_eq!(refused.number(), Some(number));
            assert!(refused.to_string().starts_with(words), "{number}");
        }
        assert_eq!(NcwError::refused(5, || 33).number(), None);
    }
}
