//! What either side says of a summary and a file. The original has no summaries: it decodes.
use super::Call;
use crate::errors::refused;
use crate::frames::sides::whole;
use crate::input::Refused;
use crate::summaries::{self, Decoded, Pair, Summary};

/// What the reference says.
pub struct Said {
    pub built: Result<Vec<u8>, u32>,
    pub read: Result<Summary, u32>,
    /// The pair that is asked for.
    pub pair: Result<Pair, u32>,
    pub same: Result<bool, u32>,
    /// The bits word, where decoding is refused by 4.
    pub bits: i16,
}

pub fn reference(call: &Call) -> Said {
    let decoded = decoded(&call.file);
    Said {
        built: summaries::build(&decoded, u64::MAX),
        read: summaries::read(&call.summary),
        pair: summaries::read_pair(&call.summary, call.group, call.channel, u64::MAX),
        same: summaries::check(&call.summary, &decoded),
        bits: whole(&call.file).decoded.as_ref().err().map_or(0, |refused| refused.1),
    }
}

/// How the original decodes a file, or by which number it refuses it.
pub fn decoded(file: &[u8]) -> Result<Decoded, u32> {
    let said = whole(file);
    let number = |refused: &Refused| refused.0;
    let (opened, samples) = (said.opened.as_ref().map_err(number)?, said.decoded.as_ref().map_err(number)?);
    let (frames, channels, is_float) = (opened.frames, opened.channels, opened.float);
    Ok(Decoded { frames, channels, is_float, samples: samples.clone() })
}

/// What the drop-in crate says of the same, and the pairs of what it built.
pub struct DropIn {
    pub built: Result<(Vec<u8>, Summary), Refused>,
    pub read: Result<(Vec<u8>, Summary), Refused>,
    pub pair: Result<Pair, Refused>,
    pub same: Result<bool, Refused>,
    /// The pair that is asked for, of what was opened.
    pub got: Option<Pair>,
}

pub fn drop_in(call: &Call) -> DropIn {
    let Call { summary, file, group, channel } = call;
    let opened = ours::Peaks::open(summary);
    DropIn {
        built: ours::Peaks::build(file).map(held).map_err(refused),
        pair: ours::read_peak(summary, *group, *channel).map_err(refused),
        same: ours::Peaks::check(summary, file).map_err(refused),
        got: opened.as_ref().ok().and_then(|peaks| peaks.get(*group, *channel)),
        read: opened.map(held).map_err(refused),
    }
}

fn held(peaks: ours::Peaks) -> (Vec<u8>, Summary) {
    let summary = Summary { frames: peaks.frames(), channels: peaks.channels(), pairs: peaks.pairs().collect() };
    (peaks.bytes().to_vec(), summary)
}
