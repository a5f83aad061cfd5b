//! Calls of encoding with any settings that document 02 takes, and some that it does not. They have few samples, since a block takes long.
use crate::asking::Question;
use crate::random::{Deck, Random};
use crate::samples::{limits, woven};
use ncw::{PcmSpec, StereoMode};

pub struct Maker {
    random: Random,
    channels: Deck<u16>,
    depths: Deck<u16>,
    modes: Deck<StereoMode>,
}

/// One call of so many has pairs that are far apart.
const ONE_OF_FAR_PAIRS: usize = 4;

impl Maker {
    pub fn new(seed: u64) -> Self {
        Maker {
            random: Random::new(seed),
            channels: Deck::new(&[1, 1, 2, 2, 2, 2, 3, 3, 4, 5, 6, 7, 8, 9]),
            depths: Deck::new(&[8, 8, 8, 16, 24, 32, 32, 32, 32, 12]),
            modes: Deck::new(&[StereoMode::Auto, StereoMode::Auto, StereoMode::Direct, StereoMode::MidSide]),
        }
    }

    pub fn question(&mut self) -> Question {
        match self.random.once_in(ONE_OF_FAR_PAIRS) {
            true => far_pairs(&mut self.random),
            false => self.of_channels(),
        }
    }

    fn of_channels(&mut self) -> Question {
        let r = &mut self.random;
        let (channels, depth) = (self.channels.draw(r), self.depths.draw(r));
        let frames = r.pick(&[0, 1, 2, 2, 3, 3, 5, 9]);
        let each: Vec<Vec<i32>> = (0..channels).map(|_| channel(depth, frames, r)).collect();
        let mut samples = woven(&each, frames);
        if !r.once_in(4) {
            samples.chunks_mut(channels.into()).for_each(of_one_parity);
        }
        for _ in 0..r.pick(&[0, 0, 0, 0, 0, 1, 2]) {
            spoil(&mut samples, depth, r);
        }
        let spec = PcmSpec { channels, bits_per_sample: depth, sample_rate: r.pick(&[1, 44_100, u32::MAX]) };
        Question::Encode(spec, self.modes.draw(r), samples)
    }
}

/// Left and right of equal parity, about as far from zero on either side: 32 bits do not hold all of their differences.
fn far_pairs(random: &mut Random) -> Question {
    let mut samples = Vec::new();
    for _ in 0..random.pick(&[1, 2, 3, 5]) {
        let any = random.signed(32);
        let left = random.pick(&[i32::MIN, i32::MAX, any, any]);
        samples.extend([left, !left & !1 | left & 1]);
    }
    let spec = PcmSpec { channels: 2, bits_per_sample: 32, sample_rate: 44_100 };
    Question::Encode(spec, random.pick(&[StereoMode::MidSide, StereoMode::MidSide, StereoMode::Auto]), samples)
}

/// Any numbers of some width, both ends of the depth, one number, or one step at the edge of a width.
fn channel(depth: u16, frames: usize, random: &mut Random) -> Vec<i32> {
    let (low, high) = limits(depth);
    let bits = random.between(1, depth.into()) as u16;
    match random.below(4) {
        0 => (0..frames).map(|_| random.signed(bits.into())).collect(),
        1 => (0..frames).map(|_| random.pick(&[low, high])).collect(),
        2 => vec![random.signed(bits.into()); frames],
        _ => stepped(limits(bits), depth, frames, random),
    }
}

/// The step is held by the width whose ends these are, or is just beyond it.
fn stepped((low, high): (i32, i32), depth: u16, frames: usize, random: &mut Random) -> Vec<i32> {
    let step = i64::from(random.pick(&[low, high])) + random.between(-1, 1);
    let (at, from) = (random.below(frames.max(1)), -step / 2);
    let (lowest, highest) = limits(depth);
    let kept = |value: i64| value.clamp(lowest.into(), highest.into()) as i32;
    (0..frames).map(|frame| kept(if frame < at { from } else { from + step })).collect()
}

/// That of the first sample.
fn of_one_parity(frame: &mut [i32]) {
    let odd = frame[0] & 1;
    frame.iter_mut().for_each(|sample| *sample = *sample & !1 | odd);
}

/// An incomplete frame, or a value just outside the depth, if there are any outside.
fn spoil(samples: &mut Vec<i32>, depth: u16, random: &mut Random) {
    let (low, high) = limits(depth);
    match samples.last_mut() {
        Some(last) if random.once_in(2) => *last = random.pick(&[low.saturating_sub(1), high.saturating_add(1)]),
        _ => drop(samples.pop()),
    }
}
