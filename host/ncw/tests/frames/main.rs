//! Frames by range, held to document 02, to the whole decode, and to the reference (`host/definitions/few_frames.rs`), whose own tests are here.
#[allow(dead_code)]
#[path = "../../../recorded/blocks.rs"]
mod blocks;
mod damage;
#[path = "../../../definitions/few_frames.rs"]
#[allow(dead_code)]
mod few_frames;
#[allow(dead_code)]
#[path = "../../../definitions/files.rs"]
mod files;
#[allow(dead_code)]
#[path = "../../../definitions/located.rs"]
mod located;
#[allow(dead_code)]
#[path = "../../../definitions/misfit.rs"]
mod misfit;
mod pieces;
#[allow(dead_code)]
#[path = "../../../definitions/random.rs"]
mod random;
mod ranges;
mod room;

use blocks::{file, flagged, noisy, noisy_raw};
use files::File;
use ncw::{NcwError, NcwReader};
use random::Random;
use std::io::Cursor;

/// Number, and the bits word of 4.
type Told = (u32, i16);

fn told(error: NcwError) -> Told {
    match error {
        NcwError::UnsupportedBitDepth(bits) => (4, bits),
        _ => (error.number().unwrap(), 0),
    }
}

fn reader(file: &[u8]) -> NcwReader<Cursor<&[u8]>> {
    NcwReader::read(Cursor::new(file)).unwrap()
}

/// What is read with enough room, by the reference, by lent room, and by a reader where the file opens.
fn read(file: &[u8], first: u32, count: u32) -> Result<Vec<i32>, Told> {
    let bits = |refused: &located::Refused| if refused.number == 4 { refused.told as i16 } else { 0 };
    let said =
        few_frames::read_frames(file, first, count, u64::MAX).map_err(|refused| (refused.number, bits(&refused)));
    let mut room = vec![7; said.as_ref().map_or(3, Vec::len)];
    let lent = ncw::read_frames_into(file, first, count, &mut room).map_err(told);
    assert_eq!(lent, said.as_ref().map(Vec::len).map_err(|told| *told), "{first}, {count}");
    assert_eq!(&room, said.as_ref().unwrap_or(&vec![7; 3]), "{first}, {count}");
    if let Ok(reader) = NcwReader::read(Cursor::new(file)) {
        assert_eq!(reader.read_frames(first, count).map_err(told), said, "{first}, {count}");
    }
    said
}

/// Four groups, the last of 64 frames, the third mid/side where there are two channels; the second block is raw.
fn four(channels: u16, float: u16) -> File {
    let random = &mut Random::new(channels.into());
    let mut group = |g| {
        let flags = float | u16::from(channels == 2 && g == 2);
        (0..channels).map(|c| flagged(flags, if c == 1 { noisy_raw(7, random) } else { noisy(5, random) })).collect()
    };
    file(channels, 16, 1_600, (0..4).map(&mut group).collect())
}
