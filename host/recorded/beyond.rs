//! What document 02 takes and the original refuses by 30: 3 to 8 channels, 8 and 32 bits. Encoding's answers are the reference's there, what is written
//! the original reads, and re-encoding refuses it. The grid of all settings has the original's own among them.
use crate::answers::writing;
use crate::draw::{Draw, Samples};
use crate::encodings::{case, case_in, in_all_modes, spec, Encoding};
use crate::random::Random;
use crate::samples::limits;
use crate::tape::{Tape, MOST_SAMPLES, SPACE};
use ncw::{PcmSpec, StereoMode};

const SEED: u64 = 20_261_120;

const LOW: i32 = i32::MIN;
const HIGH: i32 = i32::MAX;

pub fn all() -> Vec<Encoding> {
    let lists = [of_document(), of_pairs(), of_widths(), of_choice(), of_values(), of_calls(), of_orders()];
    lists.into_iter().flatten().collect()
}

// ---- what is written

/// Document 02's steps, which wrap or are at the edge of the widest differences, and those down.
fn of_document() -> Vec<Encoding> {
    let edge = 1 << 30;
    let wide = [[HIGH, LOW], [LOW, HIGH], [0, edge - 1], [0, edge], [0, -edge], [0, -edge - 1]];
    let narrow = [[0, 63], [0, 64], [0, -64], [0, -65]];
    let steps = wide.map(|step| (32, step)).into_iter().chain(narrow.map(|step| (8, step)));
    let one = |(depth, step): (u16, [i32; 2])| {
        case(&format!("depth {depth}, {} then {}", step[0], step[1]), spec(1, depth), StereoMode::Auto, step)
    };
    steps.map(one).collect()
}

/// Mid and side are halves of exact sums and differences. Those of two frames are at both ends, so that their own differences wrap.
fn of_pairs() -> Vec<Encoding> {
    let pairs = [(32, [HIGH, LOW + 1]), (32, [LOW, HIGH - 1]), (32, [HIGH, LOW]), (8, [-128, 126])];
    let one = |(depth, pair): (u16, [i32; 2])| {
        in_all_modes(&format!("depth {depth}, the pair {}, {}", pair[0], pair[1]), spec(2, depth), &pair)
    };
    let mut cases: Vec<Encoding> = pairs.into_iter().flat_map(one).collect();
    cases.extend(in_all_modes("mid from end to end", spec(2, 32), &[HIGH, HIGH, LOW, LOW]));
    cases.extend(in_all_modes("side from end to end", spec(2, 32), &[HIGH, LOW + 1, LOW, HIGH - 1]));
    cases
}

/// The highest difference that a width holds, and the lowest, in the last of three channels.
fn of_widths() -> Vec<Encoding> {
    let mut cases = Vec::new();
    for (depth, width) in [(8, 7), (32, 25), (32, 31)] {
        let half = 1 << (width - 1);
        for (word, step) in [("highest", half - 1), ("lowest", -half)] {
            let name = format!("three channels, depth {depth}, the {word} difference of width {width}");
            cases.push(case(&name, spec(3, depth), StereoMode::Auto, [1, 2, 3, 1, 2, 3 + step]));
        }
    }
    cases
}

/// Two channels that are alike take mid/side at any depth; two of three do not.
fn of_choice() -> Vec<Encoding> {
    let alike = |depth: u16, others: &[i32]| -> Vec<i32> {
        let step = i32::MAX >> (35 - depth);
        (0..40).flat_map(|k| [&[step * (k % 7)][..], &[step * (k % 7)], others].concat()).collect()
    };
    let mut cases = Vec::new();
    for depth in [8, 32] {
        cases.push(case(&format!("both alike, depth {depth}"), spec(2, depth), StereoMode::Auto, alike(depth, &[])));
        cases.extend(in_all_modes(&format!("two of three alike, depth {depth}"), spec(3, depth), &alike(depth, &[5])));
    }
    cases
}

// ---- what is refused

/// At each limit of 8 bits, and one beyond it; 32 bits have every value.
fn of_values() -> Vec<Encoding> {
    let narrow = [-129, -128, 127, 128, LOW, HIGH].map(|value| (8, value));
    let values = narrow.into_iter().chain([LOW, HIGH].map(|value| (32, value)));
    let one = |(depth, value): (u16, i32)| {
        let name = format!("eight channels, depth {depth}, value {value}");
        case(&name, spec(8, depth), StereoMode::Direct, [0, 1, 2, 3, 4, 5, 6, value])
    };
    values.map(one).collect()
}

/// Nine channels, incomplete frames, no frames.
fn of_calls() -> Vec<Encoding> {
    let nine = |depth| case(&format!("nine channels, depth {depth}"), spec(9, depth), StereoMode::Auto, [0; 9]);
    let (auto, both) = (StereoMode::Auto, StereoMode::MidSide);
    let mut cases: Vec<Encoding> = [8, 16, 24, 32].map(nine).into();
    cases.extend([
        case("three channels, an incomplete frame", spec(3, 16), auto, [1, 2, 3, 4]),
        case("eight channels, an incomplete frame", spec(8, 32), auto, [1, 2, 3, 4, 5, 6, 7]),
        case("eight channels without frames", spec(8, 32), auto, []),
        case("mid/side of eight channels without frames", spec(8, 8), both, []),
        case("mid/side of 32 bits without frames", spec(2, 32), both, []),
    ]);
    cases
}

/// From the last check back to the first, one more fails each time, and the earliest is told.
fn of_orders() -> Vec<Encoding> {
    let both = StereoMode::MidSide;
    vec![
        case_in(0, "three channels, 50", spec(3, 8), StereoMode::Auto, [2, 4, 6]),
        case_in(0, "three channels, 34 before 50", spec(3, 8), both, [2, 4, 6]),
        case_in(0, "three channels, 32 before 34", spec(3, 8), both, [2, 4, 128]),
        case_in(0, "three channels, 31 before 32", spec(3, 8), both, [2, 128]),
        case_in(0, "nine channels, 30 before 31", spec(9, 8), both, [2, 128]),
    ]
}

// ---- every setting

/// Each count of channels by each depth, with a few frames and with two groups. Eight channels fill the samples' space by one.
pub fn of_settings(tape: &mut Tape) {
    let random = &mut Random::new(SEED);
    for (channels, depth) in (1..=8).flat_map(|channels| [8, 16, 24, 32].map(|depth| (channels, depth))) {
        ask(tape, spec(channels, depth), few(channels, depth, random));
        ask(tape, spec(channels, depth), many(channels, depth, random));
    }
}

/// In every mode, and in a byte too few. What is written is read, and taken as template of the same samples.
fn ask(tape: &mut Tape, spec: PcmSpec, samples: impl Into<Samples>) {
    let PcmSpec { channels, bits_per_sample: depth, .. } = spec;
    let samples = samples.into();
    let count = samples.values().len();
    tape.case(format!("settings: channels {channels}, depth {depth}, frames {}", count / usize::from(channels)));
    tape.settings(spec);
    tape.samples(samples);
    let length = |mode: u32, tape: &Tape| writing(spec, mode, tape.sample_bytes(), SPACE).1.len();
    tape.encode(2, length(2, tape));
    tape.encode(1, SPACE.min(length(1, tape) + 12));
    let auto = length(0, tape);
    tape.encode(0, auto - 1);
    tape.encode(0, auto);
    tape.keep_written();
    tape.open();
    tape.decode(count);
    tape.reencode(auto);
}

/// Three frames of one parity each. A channel has both ends of the depth, any numbers, small ones, or one.
fn few(channels: u16, depth: u16, random: &mut Random) -> Vec<i32> {
    let (low, high) = limits(depth);
    let mut samples = Vec::new();
    for (frame, end) in [low, high, low].into_iter().enumerate() {
        for channel in 0..channels {
            let drawn = [end, random.signed(depth.into()), random.signed(4), channel.into()];
            samples.push(drawn[usize::from(channel % 4)] & !1 | frame as i32 & 1);
        }
    }
    samples
}

/// Even noise, as wide as there is space for what becomes of it: raw blocks, or the widest differences.
fn many(channels: u16, depth: u16, random: &mut Random) -> Samples {
    let channels = usize::from(channels);
    let frames = 520.min(MOST_SAMPLES / channels);
    let block = (SPACE - 132) / (channels * frames.div_ceil(512));
    let width = (block - 16) as u32 / 64;
    let bits = if width < depth.into() { width - 1 } else { depth.into() };
    Samples::Drawn(Draw::signed(bits - 1, random).doubled(), channels * frames)
}
