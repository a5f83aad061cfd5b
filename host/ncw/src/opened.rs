//! What the bytes of a file say of it. They are read once the archive has accepted them; on any others these functions find
//! nothing, or what happens to lie there.
use std::iter::successors;

/// How many samples a block holds for its channel. The last block of a channel is filled up to it.
pub const SAMPLES_PER_BLOCK: usize = 512;

const BLOCK_HEADER: usize = 16;

/// The numbers of a file's header.
#[derive(Debug, Clone, PartialEq, Eq)]
pub struct NcwHeader {
    /// How many samples a frame has.
    pub channels: u16,
    /// The depth: 8, 16, 24 or 32.
    pub bits_per_sample: u16,
    /// Frames in a second.
    pub sample_rate: u32,
    /// How many frames there are: samples of one channel, and not of all.
    pub num_samples: u32,
    /// Where in the file the table of offsets begins.
    pub blocks_offset: u32,
    /// Where in the file the first block begins.
    pub data_offset: u32,
    /// How many bytes the blocks take.
    pub data_size: u32,
}

/// What the 32 bits of a sample mean.
#[derive(Debug, Clone, Copy, PartialEq, Eq)]
pub enum SampleFormat {
    /// A signed number.
    Pcm,
    /// The bits of an `f32`.
    Float,
}

/// What opening finds. An [`NcwReader`](crate::NcwReader) lends it to be read.
#[derive(Debug, Clone, PartialEq, Eq)]
pub struct Opened {
    /// The numbers of the header.
    pub header: NcwHeader,
    /// Where each group of blocks begins, counted from [`NcwHeader::data_offset`] on.
    pub block_offsets: Vec<u32>,
    /// What the first block says that samples mean; `Pcm` if there is none.
    pub sample_format: SampleFormat,
}

impl Opened {
    pub(crate) fn of(file: &[u8]) -> Option<Self> {
        let header = NcwHeader::of(file)?;
        let groups = (header.num_samples as usize).div_ceil(SAMPLES_PER_BLOCK);
        let table = header.blocks_offset as usize;
        let block_offsets = (0..groups).map(|group| u32_at(file, table + 4 * group)).collect::<Option<_>>()?;
        let float = groups > 0 && u16_at(file, header.data_offset as usize + 10)? & 2 != 0;
        let sample_format = if float { SampleFormat::Float } else { SampleFormat::Pcm };
        Some(Opened { header, block_offsets, sample_format })
    }
}

impl NcwHeader {
    fn of(file: &[u8]) -> Option<Self> {
        Some(NcwHeader {
            channels: u16_at(file, 8)?,
            bits_per_sample: u16_at(file, 10)?,
            sample_rate: u32_at(file, 12)?,
            num_samples: u32_at(file, 16)?,
            blocks_offset: u32_at(file, 20)?,
            data_offset: u32_at(file, 24)?,
            data_size: u32_at(file, 28)?,
        })
    }
}

/// The bits word of a block, where those before it in its group were accepted.
pub(crate) fn bits_word(file: &[u8], group: u32, channel: u16) -> Option<i16> {
    bits_words(file, group)?.nth(channel.into())
}

/// The first bits word beyond 32 either way in the groups of these frames, where all that comes before it was accepted.
pub(crate) fn bits_beyond(file: &[u8], first: u32, count: u32) -> Option<i16> {
    let channels = NcwHeader::of(file)?.channels.into();
    let last = first.checked_add(count.checked_sub(1)?)?;
    let [first, last] = [first, last].map(|frame| frame / SAMPLES_PER_BLOCK as u32);
    let mut words = (first..=last).filter_map(|group| bits_words(file, group)).flat_map(|words| words.take(channels));
    words.find(|bits| bits.unsigned_abs() > 32)
}

/// The bits words of a group's blocks, each of which says where the next block is.
fn bits_words(file: &[u8], group: u32) -> Option<impl Iterator<Item = i16> + '_> {
    let header = NcwHeader::of(file)?;
    let entry = u32_at(file, header.blocks_offset as usize + 4 * group as usize)?;
    let bits = |block: usize| Some(u16_at(file, block + 8)? as i16);
    let behind = move |block: &usize| {
        let width = match bits(*block)?.unsigned_abs() {
            0 => header.bits_per_sample,
            width => width,
        };
        Some(block + BLOCK_HEADER + usize::from(width) * SAMPLES_PER_BLOCK / 8)
    };
    Some(successors(Some(header.data_offset as usize + entry as usize), behind).map_while(bits))
}

fn u16_at(file: &[u8], place: usize) -> Option<u16> {
    at(file, place).map(u16::from_le_bytes)
}

fn u32_at(file: &[u8], place: usize) -> Option<u32> {
    at(file, place).map(u32::from_le_bytes)
}

fn at<const N: usize>(file: &[u8], place: usize) -> Option<[u8; N]> {
    file.get(place..)?.first_chunk().copied()
}

#[cfg(test)]
mod tests {
    use super::*;

    /// Bytes that no file has: the walk over a group's blocks ends on them, and finds nothing or what lies there.
    #[test]
    fn any_bytes() {
        let places = [(0, 0), (0, u16::MAX), (1, 1), (u32::MAX, u16::MAX)];
        for (byte, length) in [0, 1, 32, 33, 0x7F, 0xFF].into_iter().flat_map(|byte| (0..300).map(move |n| (byte, n))) {
            let mut file = vec![byte; length];
            assert!(Opened::of(&file).is_none() || byte == 0);
            for (group, channel) in places.into_iter().filter(|_| byte != 0) {
                assert_eq!(bits_word(&file, group, channel), None, "{length} bytes {byte}");
                assert_eq!(bits_beyond(&file, group, 600), None, "{length} bytes {byte}");
            }
            file.iter_mut().skip(20).take(12).for_each(|byte| *byte = 0);
            for (group, channel) in places {
                let found = bits_word(&file, group, channel).map(i16::to_le_bytes);
                assert!(found.is_none_or(|word| word == [byte; 2] || word == [0; 2]), "{length} bytes {byte}");
            }
        }
    }
}
