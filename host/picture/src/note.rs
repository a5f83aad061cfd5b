//! A note that is made up: bells on the left, sweeps on the right, each of which dies away.
use ncw::{encode_pcm, PcmSpec, StereoMode};
use std::error::Error;
use std::f64::consts::TAU;
use std::fs;

const RATE: u32 = 48_000;
const SECONDS: u32 = 20;

/// When each begins, in seconds; how loud it is, its pitch, and how fast it dies away.
const BELLS: [[f64; 4]; 6] = [
    [0.3, 0.85, 220.0, 1.1],
    [3.0, 0.50, 330.0, 1.6],
    [5.0, 0.70, 277.2, 0.7],
    [9.5, 0.95, 165.0, 0.5],
    [14.0, 0.35, 440.0, 2.5],
    [15.5, 0.60, 196.0, 0.9],
];

/// The same, and how fast the pitch rises.
const SWEEPS: [[f64; 5]; 3] =
    [[0.0, 0.60, 40.0, 0.35, 90.0], [6.5, 0.80, 2.0, 0.22, 6.0], [13.0, 0.72, 500.0, 0.40, -30.0]];

pub fn write(path: &str) -> Result<(), Box<dyn Error>> {
    let spec = PcmSpec { channels: 2, bits_per_sample: 24, sample_rate: RATE };
    let sample = |value: f64| (value.clamp(-1.0, 1.0) * 8_388_607.0).round() as i32;
    let frame = |k: u32| {
        let at = f64::from(k) / f64::from(RATE);
        [sample(left(at)), sample(right(at))]
    };
    let samples: Vec<i32> = (0..SECONDS * RATE).flat_map(frame).collect();
    fs::write(path, encode_pcm(&samples, spec, StereoMode::Auto)?)?;
    println!("{path}: {SECONDS} s, 2 channels, {RATE} frames a second");
    Ok(())
}

/// None before it begins; it rises in a few milliseconds and dies away.
fn loudness(at: f64, begin: f64, loud: f64, dies: f64) -> f64 {
    let since = (at - begin).max(0.0);
    loud * (1.0 - (-since * 90.0).exp()) * (-since * dies).exp()
}

fn left(at: f64) -> f64 {
    let bell = |[begin, loud, pitch, dies]: [f64; 4]| {
        let turn = |times: f64| (TAU * times * pitch * (at - begin)).sin();
        loudness(at, begin, loud, dies) * (0.7 * turn(1.0) + 0.2 * turn(2.76) + 0.1 * turn(5.4))
    };
    BELLS.map(bell).iter().sum()
}

fn right(at: f64) -> f64 {
    let sweep = |[begin, loud, pitch, dies, rises]: [f64; 5]| {
        let since = at - begin;
        loudness(at, begin, loud, dies) * (TAU * (pitch * since + rises * since * since / 2.0)).sin()
    };
    SWEEPS.map(sweep).iter().sum()
}
