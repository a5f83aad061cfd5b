//! Peaks beside a file, held to document 02 and to the reference (`host/definitions/peaks.rs`), whose own tests are here.
#[allow(dead_code)]
#[path = "../../../recorded/blocks.rs"]
mod blocks;
mod built;
#[path = "../../../definitions/few_frames.rs"]
#[allow(dead_code)]
mod few_frames;
#[allow(dead_code)]
#[path = "../../../definitions/files.rs"]
mod files;
mod held;
#[allow(dead_code)]
#[path = "../../../definitions/located.rs"]
mod located;
#[allow(dead_code)]
#[path = "../../../definitions/misfit.rs"]
mod misfit;
#[path = "../../../definitions/peaks.rs"]
mod peaks;
#[allow(dead_code)]
#[path = "../../../definitions/random.rs"]
mod random;
mod read;
mod room;

use blocks::{file, flagged, noisy, noisy_raw};
use files::File;
use ncw::{NcwError, Peaks};
use peaks::{Decoded, Summary};
use random::Random;

fn number(error: NcwError) -> u32 {
    error.number().unwrap()
}

/// How the references decode a file, or by which number they refuse it.
fn decoded(file: &[u8]) -> Result<Decoded, u32> {
    if let Some(refused) = located::decoding(file) {
        return Err(refused.number);
    }
    let (channels, frames) = (u16::from_le_bytes([file[8], file[9]]), located::number(file, 16, 4) as u32);
    let samples = few_frames::read_frames(file, 0, frames, u64::MAX).map_err(|refused| refused.number)?;
    let is_float = frames > 0 && located::number(file, located::number(file, 24, 4) + 10, 2) & 2 != 0;
    Ok(Decoded { frames, channels, is_float, samples })
}

/// What is built, by the reference and by the crate.
fn build(file: &[u8]) -> Result<Vec<u8>, u32> {
    let said = peaks::build(&decoded(file), u64::MAX);
    let built = Peaks::build(file).map_err(number);
    assert_eq!(built.as_ref().map(|peaks| peaks.bytes().to_vec()).map_err(|number| *number), said);
    if let Ok(peaks) = built {
        assert_eq!(Ok(held(&peaks)), peaks::read(peaks.bytes()));
    }
    said
}

fn held(peaks: &Peaks) -> Summary {
    let pairs: Vec<_> = peaks.pairs().collect();
    assert_eq!(pairs.len(), peaks.groups() as usize * peaks.channels() as usize);
    Summary { frames: peaks.frames(), channels: peaks.channels(), pairs }
}

/// What is read of all of a summary, by the reference and by the crate.
fn read(summary: &[u8]) -> Result<Summary, u32> {
    let said = peaks::read(summary);
    assert_eq!(Peaks::open(summary).map(|peaks| held(&peaks)).map_err(number), said, "{summary:?}");
    said
}

/// The pair of a group and a channel, by the reference, by the crate's call for one, and by what it opened.
fn pair(summary: &[u8], group: u32, channel: u32) -> Result<(i32, i32), u32> {
    let said = peaks::read_pair(summary, group, channel, u64::MAX);
    assert_eq!(ncw::read_peak(summary, group, channel).map_err(number), said, "{group}, {channel}");
    if let Ok(peaks) = Peaks::open(summary) {
        assert_eq!(peaks.get(group, channel), said.ok(), "{group}, {channel}");
    }
    said
}

/// Whether it is the summary of the file, by the reference and by the crate.
fn check(summary: &[u8], file: &[u8]) -> Result<bool, u32> {
    let said = peaks::check(summary, &decoded(file));
    assert_eq!(Peaks::check(summary, file).map_err(number), said, "{summary:?}");
    said
}

/// Four groups, the last of 64 frames, the third mid/side where there are two channels; the second block is raw.
fn four(channels: u16, float: u16) -> File {
    let random = &mut Random::new(channels.into());
    let mut group = |g| {
        let flags = float | u16::from(channels == 2 && g == 2);
        (0..channels).map(|c| flagged(flags, if c == 1 { noisy_raw(7, random) } else { noisy(5, random) })).collect()
    };
    file(channels, 16, 1_600, (0..4).map(&mut group).collect())
}
