//! Fewer and smaller samples on which the two sides still differ.
use super::Sampled;
use crate::input::Input;
use crate::shrink::Search;
use std::iter::successors;

impl<I: Input + Sampled> Search<I> {
    /// All samples zero, or half of what they were.
    pub fn flatten(&mut self) -> bool {
        let samples = self.input.numbers().unwrap_or_default();
        [0, 1].into_iter().any(|half| {
            let less: Vec<i32> = samples.iter().map(|sample| sample / 2 * half).collect();
            !samples.is_empty() && self.keeps(self.input.with(&less))
        })
    }

    /// Each sample as near to zero as it comes.
    pub fn lessen_each(&mut self) {
        let count = self.input.numbers().map_or(0, |samples| samples.len());
        for at in 0..count {
            while self.lessen_one(at) {}
        }
    }

    fn lessen_one(&mut self, at: usize) -> bool {
        let samples = self.input.numbers().unwrap_or_default();
        let mut steps = successors(Some(samples[at]), |step| Some(step / 2)).take_while(|step| *step != 0);
        steps.any(|step| {
            let mut less = samples.clone();
            less[at] -= step;
            self.keeps(self.input.with(&less))
        })
    }
}

/// The samples of all channels but one.
pub fn without(samples: &[i32], channel: usize, channels: usize) -> Vec<i32> {
    let others = samples.iter().enumerate().filter(|(k, _)| k % channels != channel);
    others.map(|(_, sample)| *sample).collect()
}
