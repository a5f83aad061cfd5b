//! Files, those of reading among them, each beside bytes that are drawn.
use super::faulty::numbers_of;
use super::numbers::{any, any_pair};
use super::{Call, Part};
use crate::lent::mark;
use crate::peaks::sides::decoded;
use crate::random::Random;
use crate::reading::families;
use crate::summaries::{self, Summary};

/// The files of reading that are made by a rule, all but those with three faults and those of damaged groups.
pub fn of_files() -> Vec<Part> {
    let parts = families::made().into_iter().flat_map(|family| family.parts);
    parts.map(|part| part.map(|file| with_summary(file, 0))).collect()
}

pub fn random(count: usize, seed: u64) -> Part {
    families::random(count, seed).map(move |file| with_summary(file, seed))
}

/// What is held beside a file.
#[derive(Clone, Copy)]
pub enum Held {
    /// Its own summary.
    Own,
    /// With a bit changed.
    Changed,
    /// Without some bytes at the end.
    Cut,
    /// With some more.
    Longer,
    /// With a number that is too long.
    Long,
    /// With two numbers exchanged.
    Exchanged,
    /// With a pair that is another.
    OtherPair,
    /// Another summary of so many frames and channels.
    OtherPairs,
    /// Any summary.
    Any,
    /// Any bytes.
    Bytes,
}

impl Held {
    pub const ALL: [Held; 10] = [
        Held::Own,
        Held::Changed,
        Held::Cut,
        Held::Longer,
        Held::Long,
        Held::Exchanged,
        Held::OtherPair,
        Held::OtherPairs,
        Held::Any,
        Held::Bytes,
    ];
}

/// The turn makes other bytes beside the same file.
pub fn with_summary(file: Vec<u8>, turn: u64) -> Call {
    let random = &mut Random::new(turn.wrapping_add(mark(&file) as u64));
    let held = random.pick(&Held::ALL);
    beside(file, held, random)
}

/// A file that has no summary has a small one here.
pub fn beside(file: Vec<u8>, held: Held, random: &mut Random) -> Call {
    let own = match decoded(&file) {
        Ok(decoded) => summaries::summary(&decoded),
        Err(_) => any_small(random),
    };
    let summary = bytes(&own, held, random);
    let of = summaries::read(&summary).unwrap_or(own);
    let [group, channel] = [of.groups(), of.channels].map(|count| near(count, random));
    Call { summary, file, group, channel }
}

/// A number that is there, or one behind the last.
fn near(count: u32, random: &mut Random) -> u32 {
    match random.below(12) {
        0 => count,
        1 => count.saturating_add(random.below(4) as u32),
        2 => random.pick(&[u32::MAX, 1 << 31, u32::MAX - count]),
        _ => random.below(count.max(1) as usize) as u32,
    }
}

fn any_small(random: &mut Random) -> Summary {
    any(random.below(2_000) as u32, random.between(1, 5) as u32, random)
}

fn bytes(own: &Summary, held: Held, random: &mut Random) -> Vec<u8> {
    let mut numbers = numbers_of(own);
    let at = random.below(numbers.len());
    match held {
        Held::Own => (),
        Held::Changed => numbers[at][0] ^= 1 << random.below(8),
        Held::Cut => {
            let whole = numbers.concat();
            return whole[..random.below(whole.len())].to_vec();
        }
        Held::Longer => {
            let count = random.between(1, 9) as usize;
            numbers.push(random.bytes(count));
        }
        Held::Long => {
            let last = numbers[at].len() - 1;
            numbers[at][last] |= 0x80;
            numbers[at].push(0);
        }
        Held::Exchanged => {
            let other = random.below(numbers.len());
            numbers.swap(at, other);
        }
        Held::OtherPair => {
            let mut pairs = own.pairs.clone();
            match pairs.is_empty() {
                true => pairs.push(any_pair(random)),
                false => {
                    let k = random.below(pairs.len());
                    pairs[k] = any_pair(random);
                }
            }
            return summaries::written(&Summary { pairs, ..*own });
        }
        Held::OtherPairs => return summaries::written(&any(own.frames, own.channels, random)),
        Held::Any => return summaries::written(&any_small(random)),
        Held::Bytes => {
            let count = random.below(20);
            return random.bytes(count);
        }
    }
    numbers.concat()
}
