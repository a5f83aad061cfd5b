//! The reader by its original name.
use crate::error::NcwError;
use crate::opened::Opened;
use crate::pieces::Pieces;
use crate::refused::{decode_refusal, Refused};
use crate::slices::{decode_into, open, read_frames_into};
use std::fmt;
use std::io::{Read, Seek, SeekFrom};
use std::marker::PhantomData;
use std::ops::Deref;

/// An NCW file, opened. It holds the file's bytes.
///
/// `header`, `block_offsets` and `sample_format` are read as members of the reader; they are those of [`Opened`], to which it
/// dereferences. They can't be edited: decoding always speaks of the file that was opened.
///
/// ```no_run
/// # let file = std::fs::File::open("sound.ncw")?;
/// let mut reader = ncw::NcwReader::read(file)?;
/// assert_eq!(reader.header.channels, 2);
/// # Ok::<(), Box<dyn std::error::Error>>(())
/// ```
///
/// ```compile_fail,E0594
/// # let file = std::fs::File::open("sound.ncw")?;
/// let mut reader = ncw::NcwReader::read(file)?;
/// reader.header.channels = 2;
/// # Ok::<(), Box<dyn std::error::Error>>(())
/// ```
pub struct NcwReader<R> {
    opened: Opened,
    file: Vec<u8>,
    samples: usize,
    reader: PhantomData<R>,
}

impl<R: Read + Seek> NcwReader<R> {
    /// Reads the whole input from its start into memory, and opens it. The reader is dropped then.
    pub fn read(mut reader: R) -> Result<Self, NcwError> {
        let mut file = Vec::new();
        reader.seek(SeekFrom::Start(0))?;
        reader.read_to_end(&mut file)?;
        let samples = open(&file)? / 4;
        // Bytes that open have all that is read here, so this is never refused.
        let opened = Opened::of(&file).ok_or_else(|| NcwError::refused(1, i16::default))?;
        Ok(NcwReader { opened, file, samples, reader: PhantomData })
    }

    /// All samples, frame by frame, each frame's in the order of channels: [`NcwHeader::num_samples`] times
    /// [`NcwHeader::channels`] of them. Mid/side is undone. If the format is float they are the bits of `f32`s.
    ///
    /// Not enough memory for them is `InvalidHeader`, as in the original, without a number; it is found before any refusal.
    ///
    /// [`NcwHeader::num_samples`]: crate::NcwHeader::num_samples
    /// [`NcwHeader::channels`]: crate::NcwHeader::channels
    pub fn decode_samples(&mut self) -> Result<Vec<i32>, NcwError> {
        let mut samples = room_for(self.samples)?;
        decode_into(&self.file, &mut samples)?;
        Ok(samples)
    }

    /// The samples of `count` frames, from the frame `first` on: those that [`decode_samples`](Self::decode_samples) has there, where
    /// it does not refuse. Only groups that have one of these frames are looked at, and the signature and flags of the first block:
    /// other damage in other groups does not matter. Frames past the last are refusal 51, also where `count` is 0 and `first` is past
    /// the end.
    ///
    /// Each call goes over the whole table of offsets before it reads: for many frames in order [`pieces`](Self::pieces) is better
    /// than many calls.
    pub fn read_frames(&self, first: u32, count: u32) -> Result<Vec<i32>, NcwError> {
        // Frames that are not there are refused whatever the room is.
        let is_there = u64::from(first) + u64::from(count) <= self.header.num_samples.into();
        let there = if is_there { count as usize } else { 0 };
        let mut samples = room_for(there * usize::from(self.header.channels))?;
        read_frames_into(&self.file, first, count, &mut samples)?;
        Ok(samples)
    }

    /// All samples in order, a piece at a time: memory is taken for one piece, and not for the whole file's samples.
    pub fn pieces(&self) -> Pieces<'_, R> {
        Pieces::new(self)
    }

    /// Where [`decode_samples`](Self::decode_samples) refuses the file; None where it does not, also where it found too little memory.
    pub fn decode_refusal(&self) -> Option<Refused> {
        decode_refusal(&self.file, 4 * self.samples)
    }
}

/// Room for so many samples.
fn room_for(count: usize) -> Result<Vec<i32>, NcwError> {
    let mut samples = Vec::new();
    samples.try_reserve_exact(count).map_err(|_| NcwError::no_memory())?;
    samples.resize(count, 0);
    Ok(samples)
}

impl<R> Deref for NcwReader<R> {
    type Target = Opened;

    fn deref(&self) -> &Opened {
        &self.opened
    }
}

impl<R> fmt::Debug for NcwReader<R> {
    fn fmt(&self, f: &mut fmt::Formatter<'_>) -> fmt::Result {
        f.debug_struct("NcwReader").field("opened", &self.opened).finish_non_exhaustive()
    }
}

#[cfg(test)]
mod tests {
    use super::*;

    #[test]
    fn not_enough_memory() {
        let opened = Opened::of(&[0; 32]).unwrap();
        let reader = PhantomData::<std::io::Empty>;
        let refused = NcwReader { opened, file: Vec::new(), samples: usize::MAX, reader }.decode_samples().unwrap_err();
        assert!(matches!(refused, NcwError::InvalidHeader(_)));
        assert_eq!(refused.number(), None);
    }
}
