//! What the encoder is asked: document 01's own cases, every width, what each mode takes, every refusal that a run can reach, and some drawn from a seed.
use crate::draw::{Draw, Samples};
use crate::random::Random;
use crate::tape::SPACE;
use crate::widened::encoding;
use ncw::{PcmSpec, StereoMode};

pub struct Encoding {
    pub name: String,
    pub spec: PcmSpec,
    pub mode: StereoMode,
    pub samples: Samples,
    /// How many bytes there is room for.
    pub room: usize,
}

type List = fn(&mut Random) -> Vec<Encoding>;

const SEED: u64 = 20_260_105;

const DRAWN: usize = 12;

const MODES: [StereoMode; 3] = [StereoMode::Auto, StereoMode::Direct, StereoMode::MidSide];

#[rustfmt::skip]
pub fn all() -> Vec<Encoding> {
    let random = &mut Random::new(SEED);
    let lists: [List; 12] = [
        of_document, of_lengths, of_padding, of_parity, of_choice, of_widths, drawn,
        of_settings, of_values, of_stereo, of_orders, of_room,
    ];
    lists.iter().flat_map(|list| list(random)).collect()
}

pub fn spec(channels: u16, depth: u16) -> PcmSpec {
    PcmSpec { channels, bits_per_sample: depth, sample_rate: 44_100 }
}

/// With room for twelve bytes more than the file takes.
pub fn case(name: &str, spec: PcmSpec, mode: StereoMode, samples: impl Into<Samples>) -> Encoding {
    let samples = samples.into();
    let length = length(spec, mode, &samples.values()).unwrap_or(0);
    case_in(SPACE.min(length + 12), name, spec, mode, samples)
}

pub fn case_in(room: usize, name: &str, spec: PcmSpec, mode: StereoMode, samples: impl Into<Samples>) -> Encoding {
    let name = format!("{name}, {mode:?}, room {room}");
    Encoding { name, spec, mode, samples: samples.into(), room }
}

fn length(spec: PcmSpec, mode: StereoMode, samples: &[i32]) -> Option<usize> {
    encoding(spec, mode, samples).ok().map(|file| file.len())
}

pub fn in_all_modes(name: &str, spec: PcmSpec, samples: &[i32]) -> Vec<Encoding> {
    MODES.map(|mode| case(name, spec, mode, samples)).into()
}

// ---- what is written

fn of_document(_: &mut Random) -> Vec<Encoding> {
    let (mono, stereo) = (spec(1, 16), spec(2, 16));
    let direct = StereoMode::Direct;
    let mut cases = vec![
        case("no frames", stereo, StereoMode::Auto, &[]),
        case("one sample", mono, StereoMode::Auto, &[5]),
        case("0, 16383", mono, direct, &[0, 16_383]),
        case("0, 16384", mono, direct, &[0, 16_384]),
    ];
    cases.extend(in_all_modes("the pair 5, 5", stereo, &[5, 5]));
    cases.extend(in_all_modes("the pair 3, 5", stereo, &[3, 5]));
    cases.extend(in_all_modes("the pair 3, 4", stereo, &[3, 4]));
    cases.extend(in_all_modes("the pair -32768, 32766", stereo, &[-32_768, 32_766]));
    cases
}

fn of_lengths(random: &mut Random) -> Vec<Encoding> {
    let mut cases = Vec::new();
    for (frames, channels) in [(511, 1), (512, 1), (513, 1), (512, 2), (513, 2), (1024, 1)] {
        let samples = Samples::Drawn(Draw::signed(9, random).doubled(), frames * channels);
        let mode = if channels == 1 { StereoMode::Direct } else { StereoMode::MidSide };
        cases.push(case(&format!("{frames} frames"), spec(channels as u16, 16), mode, samples));
    }
    cases
}

/// Last samples that zeros after them would make wider.
fn of_padding(_: &mut Random) -> Vec<Encoding> {
    let ramp: Vec<i32> = (0..514).map(|k| 20 * k).collect();
    vec![
        case("a last sample far from 0", spec(1, 16), StereoMode::Direct, &[30_000, 30_001]),
        case("a short last group far from 0", spec(1, 16), StereoMode::Direct, &ramp),
        case("a pair far from 0", spec(2, 24), StereoMode::Auto, &[8_388_606, 8_388_604, 8_388_607, 8_388_603]),
    ]
}

/// One frame of different parity: first, last, in a second group.
fn of_parity(_: &mut Random) -> Vec<Encoding> {
    let mut cases = Vec::new();
    for (frames, odd) in [(3, 0), (3, 2), (514, 512), (514, 511)] {
        let samples: Vec<i32> = (0..frames).flat_map(|k| [6 * k, 6 * k + 2 + i32::from(k == odd)]).collect();
        cases.extend(in_all_modes(&format!("{frames} frames, parity differs in frame {odd}"), spec(2, 16), &samples));
    }
    cases
}

/// Mid/side smaller, and not; by group.
fn of_choice(_: &mut Random) -> Vec<Encoding> {
    let alike: Vec<i32> = (0..40).flat_map(|k| [500 * (k % 7), 500 * (k % 7)]).collect();
    let opposed: Vec<i32> = (0..40).flat_map(|k| [500 * (k % 7), -500 * (k % 7)]).collect();
    let apart: Vec<i32> = (0..40).flat_map(|k| [500 * (k % 7), 2 * (k % 3)]).collect();
    let turns: Vec<i32> = (0..520).flat_map(|k| [100 * (k % 9), if k < 512 { 100 * (k % 9) } else { 4 }]).collect();
    let names = ["both alike", "each the other's opposite", "one almost still", "alike, then not"];
    let lists = [&alike, &opposed, &apart, &turns];
    names.iter().zip(lists).map(|(name, list)| case(name, spec(2, 16), StereoMode::Auto, list)).collect()
}

/// The highest difference that each width holds, and the lowest.
fn of_widths(_: &mut Random) -> Vec<Encoding> {
    let mut cases = Vec::new();
    for (depth, width) in (2..=15).map(|width| (16, width)).chain([2, 3, 8, 16, 17, 22, 23].map(|width| (24, width))) {
        let half = 1 << (width - 1);
        for (word, step) in [("highest", half - 1), ("lowest", -half)] {
            let name = format!("depth {depth}, the {word} difference of width {width}");
            cases.push(case(&name, spec(1, depth), StereoMode::Auto, &[3, 3 + step, 3 + step]));
        }
    }
    cases
}

fn drawn(random: &mut Random) -> Vec<Encoding> {
    let mut one = |k: usize| {
        let (channels, depth) = (1 + random.below(2) as u16, [16, 24][random.below(2) as usize]);
        let bits = random.between(2, i64::from(depth)) as u32;
        let count = usize::from(channels) * random.between(1, 30) as usize;
        let samples: Vec<i32> = (0..count).map(|_| random.signed(bits) & !1).collect();
        let mode = if channels == 1 { StereoMode::Auto } else { MODES[random.below(3) as usize] };
        case(&format!("drawn {k}"), spec(channels, depth), mode, &samples)
    };
    (0..DRAWN).map(|k| one(k)).collect()
}

// ---- what is refused

fn of_settings(_: &mut Random) -> Vec<Encoding> {
    let channels = [0, 9, 65_535].map(|channels| (channels, 16, 44_100));
    let depths = [0, 7, 9, 15, 17, 23, 25, 31, 33, 65_535].map(|depth| (1, depth, 44_100));
    let others = [(1, 16, 0), (0, 0, 0), (2, 24, 1), (1, 16, u32::MAX)];
    let settings = channels.into_iter().chain(depths).chain(others);
    let spec = |(channels, depth, rate)| PcmSpec { channels, bits_per_sample: depth, sample_rate: rate };
    let name = |(channels, depth, rate)| format!("channels {channels}, depth {depth}, rate {rate}");
    settings.map(|s| case(&name(s), spec(s), StereoMode::Auto, &[2, 4])).collect()
}

/// At each limit of a depth, and one beyond it.
fn of_values(_: &mut Random) -> Vec<Encoding> {
    let mut cases = Vec::new();
    for (depth, limit) in [(16, 1 << 15), (24, 1 << 23)] {
        for value in [-limit - 1, -limit, limit - 1, limit, i32::MIN, i32::MAX] {
            cases.push(case(&format!("depth {depth}, value {value}"), spec(1, depth), StereoMode::Direct, &[0, value]));
        }
    }
    cases
}

fn of_stereo(_: &mut Random) -> Vec<Encoding> {
    let both = StereoMode::MidSide;
    vec![
        case("an incomplete frame", spec(2, 16), StereoMode::Auto, &[1, 2, 3]),
        case("mid/side of one channel", spec(1, 16), both, &[1]),
        case("mid/side of one channel without frames", spec(1, 16), both, &[]),
        case("mid/side without frames", spec(2, 16), both, &[]),
    ]
}

/// From the last check back to the first, one more fails each time, and the earliest is told.
fn of_orders(_: &mut Random) -> Vec<Encoding> {
    let both = StereoMode::MidSide;
    let (stereo, mono) = (spec(2, 16), spec(1, 16));
    vec![
        case_in(0, "50", stereo, both, &[2, 4]),
        case_in(0, "35 before 50", stereo, both, &[2, 3]),
        case_in(0, "34 before 50", mono, both, &[2, 3]),
        case_in(0, "32 before 34", mono, both, &[2, 40_000]),
        case_in(0, "32 before 35", stereo, both, &[2, 40_001]),
        case_in(0, "31 before 32", stereo, both, &[2, 3, 40_000]),
        case_in(0, "30 before 31", spec(2, 17), both, &[2, 3, 40_000]),
    ]
}

/// Exactly enough, one byte less, none.
fn of_room(_: &mut Random) -> Vec<Encoding> {
    let mut cases = Vec::new();
    for (spec, samples) in [(spec(1, 16), vec![5]), (spec(2, 24), vec![]), (spec(2, 16), vec![9; 1028])] {
        let length = length(spec, StereoMode::Auto, &samples).expect("it can be encoded");
        let rooms = [length, length - 1, length - 4, 0];
        cases.extend(
            rooms.map(|room| case_in(room, &format!("a file of {length} bytes"), spec, StereoMode::Auto, &samples)),
        );
    }
    cases
}
