//! Summaries by their numbers, beside a file of no frames.
use super::{Call, Part};
use crate::blocks::file;
use crate::changed;
use crate::lent;
use crate::picks::Picks;
use crate::random::Random;
use crate::summaries::{folded, sevens, written, Summary};

/// A summary of so many frames and channels, with any pairs.
pub fn any(frames: u32, channels: u32, random: &mut Random) -> Summary {
    let count = u64::from(frames.div_ceil(512)) * u64::from(channels);
    let pairs = (0..count).map(|_| any_pair(random)).collect();
    Summary { frames, channels, pairs }
}

/// Of numbers of any width.
pub fn any_pair(random: &mut Random) -> (i32, i32) {
    let widths = [1, 2, 6, 7, 8, 13, 14, 15, 20, 21, 22, 27, 28, 29, 31, 32];
    let [one, other] = [(); 2].map(|_| random.pick(&widths)).map(|width| random.signed(width));
    (one.min(other), one.max(other))
}

/// The shortest file there is: its own summary is 0 and 2.
pub fn no_frames() -> Vec<u8> {
    file(2, 16, 0, Vec::new()).bytes()
}

fn beside(summary: Vec<u8>, (group, channel): (u32, u32)) -> Call {
    Call { summary, file: no_frames(), group, channel }
}

/// Frames and channels, of one pair to 15.
pub const SMALL: [(u32, u32); 8] = [(0, 1), (0, 2), (1, 1), (512, 2), (513, 2), (1_025, 3), (1_537, 1), (1_300, 5)];

pub fn small(which: usize) -> Summary {
    any(SMALL[which].0, SMALL[which].1, &mut Random::new(which as u64))
}

/// A pair that is there, and some that are past the last group, the last channel, or both. The channel behind the last would be the next group's
/// pair by its number.
pub fn pairs_to_ask(frames: u32, channels: u32) -> [(u32, u32); 6] {
    let (groups, last) = (frames.div_ceil(512), frames.div_ceil(512).saturating_sub(1));
    [(0, 0), (last, channels.saturating_sub(1)), (0, channels), (groups, 0), (u32::MAX, u32::MAX), (last, channels)]
}

const MOST: u32 = 5;

/// Up to five groups and channels: every group and channel up to some behind the last, and the largest numbers.
pub fn asked() -> Vec<Part> {
    let of = |(groups, channels): (u32, u32)| {
        let ends = [u32::MAX, u32::MAX - 1, 1 << 31, 1 << 16, u32::MAX / channels, (1 << 31) / channels];
        let of_groups: Vec<u32> = (0..=groups + 1).chain(ends).collect();
        let of_channels: Vec<u32> = (0..=groups * channels + 1).chain(ends).collect();
        let (n, m) = (of_groups.len(), of_channels.len());
        Part::new(n * m, move |k| {
            let random = &mut Random::new((k / (n * m)) as u64 + u64::from(groups * channels));
            let summary = any((512 * groups).saturating_sub(random.below(512) as u32), channels, random);
            beside(written(&summary), (of_groups[k % n], of_channels[k / n]))
        })
    };
    (0..=MOST).flat_map(|groups| (1..=MOST).map(move |channels| of((groups, channels)))).collect()
}

/// Numbers about every length of the groups of seven bits, with either sign, and the ends.
fn limits() -> Vec<i32> {
    let about = [0, 6, 7, 13, 14, 20, 21, 27, 28, 30].map(|bits| 1_i32 << bits);
    let near = about.iter().flat_map(|n| [n - 1, *n, n + 1, -n - 1, -n, 1 - n]);
    let mut all: Vec<i32> = near.chain([i32::MIN, i32::MIN + 1, i32::MAX - 1, i32::MAX]).collect();
    all.sort_unstable();
    all.dedup();
    all
}

/// Every pair of these: 64 where the first is above the second.
pub fn values() -> Vec<Part> {
    let limits = limits();
    let n = limits.len();
    vec![Part::new(n * n, move |k| {
        let pair = [folded(limits[k % n]), folded(limits[k / n])];
        beside([3, 1].into_iter().chain(pair).flat_map(sevens).collect(), (0, 0))
    })]
}

const OF_SMALL: usize = 6;

fn asked_of(which: usize, k: usize) -> (u32, u32) {
    pairs_to_ask(SMALL[which].0, SMALL[which].1)[k % OF_SMALL]
}

/// Every length, each with every pair to ask for.
pub fn lengths() -> Vec<Part> {
    let of = |which: usize| {
        let asked = (0..OF_SMALL).map(move |k| changed::cut(written(&small(which))).map(move |cut| (cut, k)));
        asked.map(move |part| part.map(move |(cut, k)| beside(cut, asked_of(which, k)))).collect::<Vec<_>>()
    };
    (0..SMALL.len()).flat_map(of).collect()
}

/// Every value of every byte.
pub fn bytes() -> Vec<Part> {
    let of = |which: usize| {
        let with = move |summary: Vec<u8>| {
            let asked = asked_of(which, lent::mark(&summary));
            beside(summary, asked)
        };
        changed::each_byte(written(&small(which))).map(with)
    };
    (0..SMALL.len()).map(of).collect()
}

const FRAMES: [u32; 12] = [0, 1, 511, 512, 513, 1_024, 1_025, 65_536, 1 << 21, 1 << 31, u32::MAX - 511, u32::MAX];
const CHANNELS: [u32; 12] = [0, 1, 2, 3, 127, 128, 65_535, 65_536, 1 << 23, 1 << 31, u32::MAX - 1, u32::MAX];

/// What stands behind some pairs.
const ENDS: [&[u8]; 8] = [&[], &[0], &[0x80], &[0x80, 0], &[4, 2], &[2, 0x80, 0], &[0xFF; 5], &[2, 4, 0x80]];

const PAIRS: usize = 5;

/// Frames and channels that promise any number of pairs, mostly more than there are bytes.
pub fn promises() -> Vec<Part> {
    vec![Part::new(FRAMES.len() * CHANNELS.len() * ENDS.len() * PAIRS * OF_SMALL, |k| {
        let (picks, random) = (&mut Picks(k), &mut Random::new(k as u64));
        let (frames, channels, end) = (picks.pick(&FRAMES), picks.pick(&CHANNELS), picks.pick(&ENDS));
        let pairs = (0..picks.below(PAIRS)).map(|_| any_pair(random)).collect();
        let asked = pairs_to_ask(frames, channels)[picks.below(OF_SMALL)];
        beside([&written(&Summary { frames, channels, pairs }), end].concat(), asked)
    })]
}
