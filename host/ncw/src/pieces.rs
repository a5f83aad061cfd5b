//! A file's samples in order, in bounded memory.
use crate::error::NcwError;
use crate::opened::SAMPLES_PER_BLOCK;
use crate::reader::NcwReader;
use std::fmt;
use std::io::{Read, Seek};
use std::iter::FusedIterator;

/// A piece has at most so many samples, or one group where that has more: 1 MiB.
///
/// Each piece is read by a call of its own, which goes over the whole table of offsets first: some 0.03 ms for ten minutes at 44,100,
/// whose 52 million samples are 202 pieces. Pieces of a group each would take most of their time there. All but the last end with a
/// group, so that no group is read twice.
pub const SAMPLES_AT_ONCE: usize = 1 << 18;

/// The samples of a file, a piece at a time, as [`NcwReader::pieces`] gives them. A piece is the samples of some frames, frame by
/// frame. Where one is refused the refusal comes in its place, and is the last: what stands before it has been given already.
///
/// ```
/// use ncw::{encode_pcm, NcwReader, PcmSpec, StereoMode, SAMPLES_AT_ONCE};
/// use std::io::Cursor;
///
/// let spec = PcmSpec { channels: 2, bits_per_sample: 16, sample_rate: 44_100 };
/// let samples: Vec<i32> = (0..600_000).map(|k| k % 1_000).collect();
/// let file = encode_pcm(&samples, spec, StereoMode::Auto).unwrap();
/// let reader = NcwReader::read(Cursor::new(file)).unwrap();
/// let mut joined = Vec::new();
/// for piece in reader.pieces() {
///     let piece = piece.unwrap();
///     assert!(piece.len() <= SAMPLES_AT_ONCE);
///     joined.extend(piece);
/// }
/// assert_eq!(joined, samples);
/// ```
pub struct Pieces<'a, R> {
    reader: &'a NcwReader<R>,
    /// The frame that comes next.
    next: u32,
}

impl<'a, R> Pieces<'a, R> {
    pub(crate) fn new(reader: &'a NcwReader<R>) -> Self {
        Pieces { reader, next: 0 }
    }

    /// How many frames a piece has: whole groups.
    fn frames(&self) -> u32 {
        let group = SAMPLES_PER_BLOCK * usize::from(self.reader.header.channels);
        (SAMPLES_PER_BLOCK * (SAMPLES_AT_ONCE / group).max(1)) as u32
    }
}

impl<R: Read + Seek> Iterator for Pieces<'_, R> {
    type Item = Result<Vec<i32>, NcwError>;

    fn next(&mut self) -> Option<Self::Item> {
        let end = self.reader.header.num_samples;
        let count = self.frames().min(end - self.next);
        if count == 0 {
            return None;
        }
        let piece = self.reader.read_frames(self.next, count);
        self.next = if piece.is_ok() { self.next + count } else { end };
        Some(piece)
    }
}

impl<R: Read + Seek> FusedIterator for Pieces<'_, R> {}

impl<R> fmt::Debug for Pieces<'_, R> {
    fn fmt(&self, f: &mut fmt::Formatter<'_>) -> fmt::Result {
        f.debug_struct("Pieces").field("next", &self.next).finish_non_exhaustive()
    }
}
