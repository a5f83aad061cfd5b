//! A few frames of the files that are opened or decoded, by the reference: the Rust decodes whole files alone.
use crate::asking::Question;
use crate::few_frames::read_frames;
use crate::located::Refused;
use crate::random::Random;

/// The first frame, the count, and what is read.
pub type Range = (u32, u32, Result<Vec<i32>, Refused>);

/// So many of each file.
const OF_A_FILE: usize = 2;

/// Those of the case `k`.
pub fn ranges(k: usize, question: &Question) -> Vec<Range> {
    let (Question::Open(file) | Question::Decode(file)) = question else { return Vec::new() };
    let random = &mut Random::new(k as u64);
    let frames = file.get(16..20).map_or(0, |four| u32::from_le_bytes([four[0], four[1], four[2], four[3]]));
    (0..OF_A_FILE).map(|_| drawn(file, frames, random)).collect()
}

/// Few frames, since each is taken from its group by itself.
fn drawn(file: &[u8], frames: u32, random: &mut Random) -> Range {
    let near = [0, 1, 510, 511, 512, 513, frames.saturating_sub(2), frames.saturating_sub(1), frames];
    let inside: Vec<u32> = near.into_iter().filter(|first| *first <= frames).collect();
    let first = random.pick(&inside);
    let (first, count) = match random.below(16) {
        0 => (first, u32::MAX - first),
        1 => (first.max(1), u32::MAX),
        2 => (frames.saturating_add(1), 0),
        3 => (first, (frames - first).saturating_add(1)),
        4 => (first, 0),
        _ => (first, random.between(0, 3).min((frames - first).into()) as u32),
    };
    (first, count, read_frames(file, first, count, u64::MAX))
}
