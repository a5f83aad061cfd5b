//! Lists of samples.
use crate::random::Random;
use crate::samples::samples;
use ncw::PcmSpec;

/// Left and right of each frame, one after another.
pub fn woven(left: &[i32], right: &[i32]) -> Vec<i32> {
    left.iter().zip(right).flat_map(|(l, r)| [*l, *r]).collect()
}

/// Left and right of each frame, from its mid and its side.
pub fn from_mid_side(mid: &[i32], side: &[i32]) -> Vec<i32> {
    mid.iter().zip(side).flat_map(|(mid, side)| [mid + side, mid - side]).collect()
}

/// Samples of any kind that `host/definitions` has, another in each group.
pub fn by_groups(channels: u16, depth: u16, frames: usize, random: &mut Random) -> Vec<i32> {
    let spec = PcmSpec { channels, bits_per_sample: depth, sample_rate: 1 };
    (0..frames).step_by(512).flat_map(|first| samples(spec, 512.min(frames - first), random)).collect()
}

/// The limits of each width up to `most`, and one beyond each.
pub fn edges(most: u16) -> Vec<i64> {
    (1..=most).flat_map(edges_of).collect()
}

/// The highest and the lowest number of a width, and one beyond each.
pub fn edges_of(width: u16) -> [i64; 4] {
    let edge = 1 << (width - 1);
    [edge - 1, -edge, edge, -edge - 1]
}

/// From one value to another that is `step` away after frame `at`.
pub fn stepped(step: i64, (at, frames): (usize, usize)) -> Vec<i32> {
    let [from, to] = apart(step);
    (0..frames).map(|k| if k <= at { from } else { to }).collect()
}

/// One sample is `step` away from all others.
pub fn spiked(step: i64, (at, frames): (usize, usize)) -> Vec<i32> {
    let [from, to] = apart(step);
    (0..frames).map(|k| if k == at { to } else { from }).collect()
}

/// Two values that are `step` apart, both about as far from zero. The longest step is from one end of 32 bits to the other.
pub fn apart(step: i64) -> [i32; 2] {
    let from = if step < 0 { -step / 2 } else { -((step + 1) / 2) };
    [from, from + step].map(|value| value.try_into().expect("a number of 32 bits"))
}

/// Alone; beside zeros on either side; the same twice, so that mid has it; with the other sign, so that side has it. The lowest
/// number of 32 bits has no other sign.
pub const FORMS: usize = 5;

pub fn formed(form: usize, channel: Vec<i32>) -> (u16, Vec<i32>) {
    let zeros = vec![0; channel.len()];
    match form {
        0 => (1, channel),
        1 => (2, woven(&channel, &zeros)),
        2 => (2, woven(&zeros, &channel)),
        3 => (2, woven(&channel, &channel)),
        _ => (2, woven(&channel, &channel.iter().map(|sample| sample.wrapping_neg()).collect::<Vec<_>>())),
    }
}

/// One channel of so many; each other one has a value of its own all the time.
pub fn among(channels: u16, channel: u16, list: &[i32]) -> Vec<i32> {
    let other = |k: u16| i32::from(k) + 1;
    list.iter().flat_map(|own| (0..channels).map(move |k| if k == channel { *own } else { other(k) })).collect()
}

// ---- frames of equal parity but for one

/// How many places there are to choose from.
pub const PLACES: usize = 8;

/// A frame of so many: first, middle, last, about the end of a group.
pub fn place(pick: usize, frames: usize) -> usize {
    [0, 1, frames / 2, frames.saturating_sub(2), frames - 1, 511, 512, 513][pick].min(frames - 1)
}

/// What is added to left and right of one frame. The last two leave parity equal.
pub const ADDED: [(i32, i32); 5] = [(1, 0), (0, 1), (-1, 0), (1, 1), (0, 0)];

pub fn add(samples: &mut [i32], frame: usize, added: (i32, i32)) {
    samples[2 * frame] += added.0;
    samples[2 * frame + 1] += added.1;
}
