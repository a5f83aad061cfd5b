//! A smaller call on which the two sides still differ.
use super::Call;
use crate::writing::shrink::without;
use crate::writing::{Sampled, RATE};
use std::iter::successors;

type Search = crate::shrink::Search<Call>;

pub fn shrink(search: &mut Search) {
    while search.simplify() || search.shorten() || search.flatten() {}
    search.lessen_each();
}

impl Search {
    /// Other settings, each nearer to mono, 16 bits, Auto.
    fn simplify(&mut self) -> bool {
        let call = self.input.clone();
        let channels = (1..=8).map(|channels| Call { channels, ..call.clone() });
        let fewer = (0..channels_of(&call)).map(|channel| a_channel_less(&call, channel));
        let depths = [16, 24, 32, 8].map(|depth| Call { depth, ..call.clone() });
        let modes = [0, 1, 2].map(|mode| Call { mode, ..call.clone() });
        let plain = [Call { rate: RATE, ..call.clone() }];
        let mut all = channels.chain(fewer).chain(depths).chain(modes).chain(plain);
        all.any(|other| settings(&other) < settings(&call) && self.keeps(other))
    }

    /// Without some of the bytes: whole frames from any place, or a few at the end.
    fn shorten(&mut self) -> bool {
        let n = self.input.samples.len();
        let frame = 4 * channels_of(&self.input);
        let halves = successors(Some(n / frame), |frames| Some(frames / 2)).take_while(|frames| *frames > 0);
        let stretches = halves.flat_map(|frames| (0..n).step_by(frames * frame).map(move |at| (at, frames * frame)));
        let mut fewer = stretches.chain([(n.saturating_sub(4), 4), (n.saturating_sub(1), 1)]);
        fewer.any(|(at, length)| {
            let mut call = self.input.clone();
            call.samples.drain(at..n.min(at + length));
            self.keeps(call)
        })
    }
}

/// How many there are, as far as they are accepted.
fn channels_of(call: &Call) -> usize {
    call.channels.clamp(1, 8).into()
}

/// Without one of the channels, in a mode that goes with any number of them.
fn a_channel_less(call: &Call, channel: usize) -> Call {
    let samples = call.numbers().unwrap_or_default();
    let less = call.with(&without(&samples, channel, channels_of(call)));
    Call { channels: call.channels.saturating_sub(1), mode: 0, ..less }
}

/// How far the settings are from mono, 16 bits, Auto, 44,100.
fn settings(call: &Call) -> (u16, u16, u32, bool) {
    (call.channels.wrapping_sub(1), call.depth.wrapping_sub(16), call.mode, call.rate != RATE)
}
