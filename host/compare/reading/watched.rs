//! Where the original stops, by what it reads. It goes to a group's beginning by a seek of its own, and takes a block by two reads: the header, the values.
use std::io::{Cursor, Read, Result, Seek, SeekFrom};

const HEADER: usize = 16;

/// A file that notes what is read of it.
#[derive(Default)]
struct Watched<'a> {
    file: Cursor<&'a [u8]>,
    /// How often it was gone to a place, counted from the start.
    seeks: u32,
    /// The place and the length of each read since then.
    reads: Vec<(usize, usize)>,
}

impl Read for Watched<'_> {
    fn read(&mut self, room: &mut [u8]) -> Result<usize> {
        let place = self.file.position() as usize;
        let length = self.file.read(room)?;
        self.reads.push((place, length));
        Ok(length)
    }
}

impl Seek for Watched<'_> {
    fn seek(&mut self, to: SeekFrom) -> Result<u64> {
        self.seeks += u32::from(matches!(to, SeekFrom::Start(_)));
        self.reads.clear();
        self.file.seek(to)
    }
}

/// The group and the channel at which decoding stops, of a file that opens.
pub fn stopped(file: &[u8]) -> (u32, u16) {
    let watched = Watched { file: Cursor::new(file), ..Watched::default() };
    let mut reader = ncw::NcwReader::read(watched).expect("it opened before");
    reader.get_mut().seeks = 0;
    assert!(reader.decode_samples().is_err(), "it was refused before");
    let depth = usize::from(reader.header.bits_per_sample);
    let Watched { seeks, reads, .. } = reader.get_ref();
    (seeks - 1, blocks_read(file, depth, reads) as u16)
}

/// How many blocks were read whole. What is read of a header or of values that are cut short is shorter.
fn blocks_read(file: &[u8], depth: usize, reads: &[(usize, usize)]) -> usize {
    let is_whole = |block: &&[(usize, usize)]| {
        let [(header, HEADER), (_, values)] = block else { return false };
        let bits = i16::from_le_bytes([file[header + 8], file[header + 9]]);
        *values == 64 * if bits == 0 { depth } else { bits.unsigned_abs().into() }
    };
    reads.chunks(2).take_while(is_whole).count()
}
