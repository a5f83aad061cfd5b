//! All settings with few samples, and sample bytes that end too soon.
use super::encoded::encoded;
use super::{Call, Part};
use crate::faults::put;
use crate::picks::Picks;
use crate::writing::settings::{few, ragged as ragged_bytes, settings, LISTS, RAGGED, SETTINGS};
use crate::writing::{Sampled, RATE};
use ncw::StereoMode;

const TEMPLATES: usize = 3;

/// With no template, one of the same settings and frames, and the same of one frame more.
pub fn all() -> Part {
    Part::new(SETTINGS * LISTS * TEMPLATES, |k| {
        let picks = &mut Picks(k);
        let (channels, depth, rate) = settings(picks);
        let call = Call { samples: few(picks), channels, depth, rate, template: Vec::new() };
        match picks.below(TEMPLATES) {
            0 => call,
            more => with_template(call, more - 1),
        }
    })
}

/// As many blocks as its frames need, and the call's settings in the header, whatever they are.
fn with_template(call: Call, more: usize) -> Call {
    let channels = call.channels.clamp(1, 2);
    let frames = call.samples.len() / 4 / usize::from(channels) + more;
    let samples: Vec<i32> = call.numbers().unwrap_or_default().into_iter().map(|sample| sample & !1).collect();
    let mut even: Vec<i32> = samples.into_iter().map(|sample| sample.clamp(-32_768, 32_766)).collect();
    even.resize(frames * usize::from(channels), 0);
    let mut template = encoded(&even, channels, 16, StereoMode::Auto);
    put(&mut template, 8, 2, call.channels.into());
    put(&mut template, 10, 2, call.depth.into());
    put(&mut template, 12, 4, call.rate.into());
    Call { template, ..call }
}

pub fn ragged() -> Part {
    let (channels, depths) = ([0, 1, 2, 3], [8, 16, 24]);
    Part::new(RAGGED * channels.len() * depths.len() * 2, move |k| {
        let picks = &mut Picks(k);
        let (samples, channels, depth) = (ragged_bytes(picks), picks.pick(&channels), picks.pick(&depths));
        let call = Call { samples, channels, depth, rate: RATE, template: Vec::new() };
        if picks.below(2) == 1 {
            with_template(call, 0)
        } else {
            call
        }
    })
}
