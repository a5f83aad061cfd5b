//! Sample lists for the writers: every width, the limits of a depth, and parities.
use crate::random::Random;
use ncw::PcmSpec;

/// `frames` whole frames within the depth. Each channel but the first is drawn beside the one before it.
pub fn samples(spec: PcmSpec, frames: usize, random: &mut Random) -> Vec<i32> {
    let mut channels = vec![channel(spec.bits_per_sample, frames, random)];
    for before in 0..usize::from(spec.channels).saturating_sub(1) {
        channels.push(beside(&channels[before], spec.bits_per_sample, random));
    }
    woven(&channels, frames)
}

/// The channels frame by frame.
pub fn woven(channels: &[Vec<i32>], frames: usize) -> Vec<i32> {
    (0..frames).flat_map(|frame| channels.iter().map(move |channel| channel[frame])).collect()
}

/// The least and the greatest value of a depth.
pub fn limits(depth: u16) -> (i32, i32) {
    (i32::MIN >> (32 - depth), i32::MAX >> (32 - depth))
}

fn clamp(value: i64, depth: u16) -> i32 {
    let (low, high) = limits(depth);
    value.clamp(low.into(), high.into()) as i32
}

fn channel(depth: u16, frames: usize, random: &mut Random) -> Vec<i32> {
    let (low, high) = limits(depth);
    let bits = random.between(1, depth.into()) as u32;
    match random.below(5) {
        0 => (0..frames).map(|_| random.signed(bits)).collect(),
        1 => (0..frames).map(|_| random.pick(&[low, high, low + 1, high - 1, 0, 1, -1])).collect(),
        2 => vec![random.signed(bits); frames],
        3 => steps(bits, depth, frames, random),
        _ => walk(bits, depth, frames, random),
    }
}

fn walk(bits: u32, depth: u16, frames: usize, random: &mut Random) -> Vec<i32> {
    let mut at = random.signed(depth.into());
    let mut step = || {
        at = clamp(i64::from(at) + i64::from(random.signed(bits)), depth);
        at
    };
    (0..frames).map(|_| step()).collect()
}

/// One difference at the edge of a width, or just past it.
fn steps(bits: u32, depth: u16, frames: usize, random: &mut Random) -> Vec<i32> {
    let edge = 1i64 << (bits - 1);
    let step = random.pick(&[edge, edge - 1, -edge, -edge - 1]);
    let base = if step < 0 { -step / 2 } else { -(step / 2) };
    let at = random.below(frames.max(1));
    (0..frames).map(|k| clamp(if k < at { base } else { base + step }, depth)).collect()
}

/// A channel beside another: of its own, equal, or of equal parity in all frames or in all but one.
fn beside(first: &[i32], depth: u16, random: &mut Random) -> Vec<i32> {
    match random.below(6) {
        0 => channel(depth, first.len(), random),
        1 => first.to_vec(),
        2 => odd_once(even_beside(first, depth, random), depth, random),
        3 => same_parity(first, depth, random),
        _ => even_beside(first, depth, random),
    }
}

fn even_beside(first: &[i32], depth: u16, random: &mut Random) -> Vec<i32> {
    let bits = random.pick(&[1, 2, 3, 6]);
    let near = |v: &i32| i64::from(*v) + 2 * i64::from(random.signed(bits));
    let fit = |v: i64, like: i32| clamp_even(v, like, depth);
    first.iter().map(near).zip(first).map(|(v, like)| fit(v, *like)).collect()
}

/// Within the depth and of the parity of `like`.
fn clamp_even(value: i64, like: i32, depth: u16) -> i32 {
    let (low, high) = limits(depth);
    let kept = clamp(value, depth);
    match (kept ^ like) & 1 {
        0 => kept,
        _ if kept == high => kept - 1,
        _ => kept.max(low) + 1,
    }
}

fn same_parity(first: &[i32], depth: u16, random: &mut Random) -> Vec<i32> {
    let other = channel(depth, first.len(), random);
    other.iter().zip(first).map(|(v, like)| clamp_even((*v).into(), *like, depth)).collect()
}

fn odd_once(mut values: Vec<i32>, depth: u16, random: &mut Random) -> Vec<i32> {
    if !values.is_empty() {
        let any = random.below(values.len());
        let at = random.pick(&[0, values.len() - 1, any]);
        values[at] = if values[at] == limits(depth).1 { values[at] - 1 } else { values[at] + 1 };
    }
    values
}

/// The same samples, a few of them changed a little.
pub fn nudged(samples: &[i32], depth: u16, random: &mut Random) -> Vec<i32> {
    let mut out = samples.to_vec();
    for _ in 0..random.pick(&[1, 1, 3]).min(out.len()) {
        let at = random.below(out.len());
        let by = random.pick(&[1, -1, 2, -2, 3]);
        out[at] = clamp(i64::from(out[at]) + by, depth);
    }
    out
}
