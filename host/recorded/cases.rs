//! The cases: document 01's own, what a reader has to tell apart, every refusal, and some drawn from a seed.
use crate::asking::Question;
use crate::blocks::{at_depth, differences, file, filled, flagged, noise, raw};
use crate::faults::{put, set_end};
use crate::files::{Block, File};
use crate::inputs::Maker;
use crate::noisy::{noisy, noisy_at_depth, noisy_raw};
use crate::orders::{Call, OF_FIRST_BLOCK, OF_LATER_BLOCK, OF_OPENING};
use crate::random::Random;
use crate::tape::{samples_in, MOST_SAMPLES};
use ncw::{encode_pcm, PcmSpec, StereoMode};

pub struct Case {
    pub name: String,
    pub file: Vec<u8>,
    /// How many samples there is room for.
    pub room: usize,
}

type List = fn(&mut Random) -> Vec<Case>;

const SEED: u64 = 20_260_101;

/// How many cases are drawn, and the longest file among them.
const DRAWN: usize = 40;
const LONGEST_DRAWN: usize = 2_000;

#[rustfmt::skip]
pub fn all() -> Vec<Case> {
    let random = &mut Random::new(SEED);
    let lists: [List; 16] = [
        of_document, of_lengths, of_bits_0, of_bits_beyond, of_channels, of_layout, of_widths, of_flags, of_floats, drawn,
        of_openings, of_tables, of_groups, of_group_signatures, of_orders, of_room,
    ];
    lists.iter().flat_map(|list| list(random)).collect()
}

/// With room for three samples more than the file has.
fn case(name: impl Into<String>, file: Vec<u8>) -> Case {
    let room = MOST_SAMPLES.min(samples_in(&file) + 3);
    case_in(room, name, file)
}

fn case_in(room: usize, name: impl Into<String>, file: Vec<u8>) -> Case {
    Case { name: format!("{}, room {room}", name.into()), file, room }
}

// ---- what is read

/// Mono, 16 bits, one sample 5: 272 bytes.
pub fn one_sample() -> Vec<u8> {
    encoded(1, &[5], StereoMode::Auto)
}

fn encoded(channels: u16, samples: &[i32], mode: StereoMode) -> Vec<u8> {
    let spec = PcmSpec { channels, bits_per_sample: 16, sample_rate: 44_100 };
    encode_pcm(samples, spec, mode).expect("samples within their depth")
}

/// A group one byte under what opening asks.
pub fn short_group(channels: u16, random: &mut Random) -> Vec<u8> {
    let whole = filled(channels, 1, || differences(random.signed(32), 1, &noise(1, random)));
    let mut bytes = whole.bytes();
    set_end(&mut bytes, &whole.places(), 80 * usize::from(channels) - 1);
    bytes
}

fn of_document(random: &mut Random) -> Vec<Case> {
    let lowest = || raw(32, &[i32::MIN; 512]);
    let both_lowest = vec![flagged(1, lowest()), lowest()];
    vec![
        case("no frames", encoded(2, &[], StereoMode::Auto)),
        case("one sample", one_sample()),
        case("a mono group of 79 bytes", short_group(1, random)),
        case("a mono group of 80 bytes", filled(1, 512, || noisy(1, random)).bytes()),
        case("a stereo group of 159 bytes", short_group(2, random)),
        case("a stereo group of 160 bytes", filled(2, 3, || noisy(1, random)).bytes()),
        case("a sum that wraps", file(1, 16, 2, vec![vec![differences(i32::MAX, 2, &[1; 512])]]).bytes()),
        case("mid and side both lowest", file(2, 32, 1, vec![both_lowest]).bytes()),
        case("a pair, mid and side", encoded(2, &[3, 5], StereoMode::MidSide)),
        case("a pair at the depth's limits", encoded(2, &[-32768, 32766], StereoMode::MidSide)),
    ]
}

fn of_lengths(random: &mut Random) -> Vec<Case> {
    let mut cases = Vec::new();
    for (frames, channels) in [(511, 1), (511, 2), (512, 1), (512, 2), (513, 1), (513, 2)] {
        let samples: Vec<i32> = (0..frames * channels).map(|_| random.signed(12)).collect();
        let file = encoded(channels as u16, &samples, StereoMode::Auto);
        cases.push(case(format!("{frames} frames, channels {channels}"), file));
    }
    cases
}

fn of_bits_0(random: &mut Random) -> Vec<Case> {
    let mut read = |depth: u16| file(1, depth, 512, vec![vec![noisy_at_depth(depth, random)]]).bytes();
    [8, 16, 24, 32].map(|depth| case(format!("bits 0 at depth {depth}"), read(depth))).into()
}

/// Beyond 32 either way, in a first block, where opening does not look at it, and in a later one.
fn of_bits_beyond(random: &mut Random) -> Vec<Case> {
    let mut cases = Vec::new();
    for (bits, group) in [33, -33, 34, 32767, -32768].into_iter().flat_map(|bits| [(bits, 0), (bits, 1)]) {
        let mut beyond = filled(1, 600, || noisy(2, random));
        beyond.groups[group][0].bits = bits;
        cases.push(case(format!("bits {bits}, group {group}"), beyond.bytes()));
    }
    cases
}

/// Every width in both codings, five to a file: by groups, and by channels.
fn of_widths(random: &mut Random) -> Vec<Case> {
    let widths: Vec<u32> = (1..=32).collect();
    let mut cases = Vec::new();
    for part in widths.chunks(5) {
        let groups: Vec<Vec<Block>> = part.iter().map(|width| vec![noisy(*width, random)]).collect();
        let frames = 512 * groups.len() as u32 - random.below(512) as u32;
        cases.push(case(format!("differences, widths {part:?}"), file(1, 24, frames, groups).bytes()));
        let group: Vec<Block> = part.iter().map(|width| noisy_raw(*width, random)).collect();
        let frames = 512 - random.below(512) as u32;
        cases.push(case(format!("raw, widths {part:?}"), file(part.len() as u16, 24, frames, vec![group]).bytes()));
    }
    cases
}

fn of_channels(random: &mut Random) -> Vec<Case> {
    let mut cases = Vec::new();
    for (channels, frames) in [(1, 514), (2, 514), (3, 514), (5, 514), (7, 2)] {
        let read = filled(channels, frames, || noisy(random.between(1, 3) as u32, random));
        cases.push(case(format!("channels {channels}, frames {frames}"), read.bytes()));
    }
    cases
}

/// Bit 0 of the first channel decides, bit 1 is the format, and the others say nothing.
fn of_flags(random: &mut Random) -> Vec<Case> {
    let lists: [(&str, u16, &[u16]); 9] = [
        ("mid/side on both blocks", 2, &[1, 1]),
        ("mid/side on the first block alone", 2, &[1, 0]),
        ("mid/side on the second block alone", 2, &[0, 1]),
        ("mid/side in the second group alone", 2, &[0, 0, 1, 1]),
        ("mid/side in the first group alone", 2, &[1, 1, 0, 1]),
        ("mid/side on a later block of three", 3, &[0, 1, 1]),
        ("every other bit", 1, &[0xFFFC]),
        ("every other bit with mid/side", 2, &[0xFFFD, 0x8004]),
        ("every other bit with float", 2, &[0xFFFE, 0x0102]),
    ];
    lists.iter().map(|(name, channels, flags)| case(*name, with_flags(*channels, flags, random))).collect()
}

pub fn with_flags(channels: u16, flags: &[u16], random: &mut Random) -> Vec<u8> {
    let groups = flags.len() as u32 / u32::from(channels);
    let mut left = flags.iter();
    filled(channels, 512 * groups - 300, || flagged(*left.next().unwrap(), noisy(7, random))).bytes()
}

// ---- floats

/// Zeros, subnormals, ordinary numbers that make sums round, the greatest, infinities; with either sign.
fn patterns() -> Vec<i32> {
    let numbers = [0.1, 1.0, 1.5, 3.0e-39, 16_777_216.0, 16_777_217.5, 0.333_333_34, 2.5e38_f32].map(f32::to_bits);
    let edges = [0, 1, 0x007F_FFFF, 0x0080_0000, 0x7F7F_FFFF, 0x7F80_0000];
    numbers.iter().chain(&edges).flat_map(|bits| [*bits as i32, (*bits | 0x8000_0000) as i32]).collect()
}

/// NaNs: quiet and signalling, with the least payload, with all of it, with another; with either sign.
fn nans() -> Vec<i32> {
    let bits = [0x7F80_0001, 0x7FBF_FFFF, 0x7F81_2345, 0x7FC0_0000, 0x7FFF_FFFF, 0x7FC1_2345];
    bits.iter().flat_map(|bits| [*bits, *bits | i32::MIN]).collect()
}

/// Mid and side in float, every pair of patterns of which `taken` says so.
fn float_file(patterns: &[i32], taken: fn(f32, f32) -> bool) -> File {
    let number = |bits: i32| f32::from_bits(bits as u32);
    let all = patterns.iter().flat_map(|m| patterns.iter().map(move |s| (*m, *s)));
    let pairs: Vec<(i32, i32)> = all.filter(|(m, s)| taken(number(*m), number(*s))).collect();
    let group = |part: &[(i32, i32)]| {
        let (mid, side): (Vec<i32>, Vec<i32>) = part.iter().copied().unzip();
        vec![flagged(3, raw(32, &mid)), flagged(2, raw(32, &side))]
    };
    file(2, 32, pairs.len() as u32, pairs.chunks(512).map(group).collect())
}

/// Pairs whose sum and difference are numbers or infinities.
pub fn float_pairs() -> File {
    float_file(&patterns(), |m, s| !(m + s).is_nan() && !(m - s).is_nan())
}

/// Pairs whose sum or difference is a NaN.
pub fn nan_pairs() -> File {
    float_file(&[patterns(), nans()].concat(), |m, s| (m + s).is_nan() || (m - s).is_nan())
}

fn of_floats(random: &mut Random) -> Vec<Case> {
    let values = patterns();
    let with_nans = [patterns(), nans()].concat();
    let alone = |block: Block, frames: usize| file(1, 32, frames as u32, vec![vec![flagged(2, block)]]).bytes();
    let beside = |values: &[i32]| flagged(2, raw(32, values));
    let turned: Vec<i32> = values.iter().rev().copied().collect();
    vec![
        case("float, mono", alone(raw(32, &values), values.len())),
        case("float, mono, with NaNs, which stay", alone(raw(32, &with_nans), with_nans.len())),
        case("float, mono, bits 0", alone(at_depth(32, &values), values.len())),
        case("float, mono, differences", alone(noisy(9, random), 512)),
        case("float, stereo", file(2, 32, 20, vec![vec![beside(&values), beside(&turned)]]).bytes()),
        case("float, mid/side", float_pairs().bytes()),
        case("float, mid/side, NaNs", nan_pairs().bytes()),
    ]
}

// ---- around the data

fn of_layout(random: &mut Random) -> Vec<Case> {
    let mut cases = Vec::new();
    for (mark, gap, tail) in [(0x30, 0, 0), (0x31, 1, 0), (0x31, 0, 1), (0x30, 3, 100), (0x31, 8, 16)] {
        let mut around = filled(1, 514, || noisy(2, random));
        around.mark = mark;
        around.unknown = random.bytes(88);
        around.gap = random.bytes(gap);
        around.tail = random.bytes(tail);
        cases.push(case(format!("mark {mark:02X}, gap {gap}, tail {tail}"), around.bytes()));
    }
    cases
}

// ---- what is refused

/// A good file with some bytes set: where, how many, to what.
pub fn set(good: &File, sets: &[(usize, usize, u64)]) -> Vec<u8> {
    let mut bytes = good.bytes();
    sets.iter().for_each(|(at, n, value)| put(&mut bytes, *at, *n, *value));
    bytes
}

fn of_openings(random: &mut Random) -> Vec<Case> {
    let good = filled(1, 3, || noisy(2, random));
    let bytes = good.bytes();
    let cut = |n: usize| case(format!("the first {n} bytes"), bytes[..n].to_vec());
    let unsigned = |at: usize| case(format!("signature, byte {at}"), set(&good, &[(at, 1, 0xEE)]));
    let changed = |(name, at, n, values): &Change| {
        let change = |value: &u64| case(format!("{name} {value}"), set(&good, &[(*at, *n, *value)]));
        values.iter().map(change).collect::<Vec<_>>()
    };
    let cuts = [0, 1, 119, 120, bytes.len() - 1].into_iter().map(cut);
    cuts.chain((0..8).map(unsigned)).chain(CHANGES.iter().flat_map(changed)).collect()
}

/// A part of a file, where it is, how many bytes it has, and what it is set to.
type Change = (&'static str, usize, usize, &'static [u64]);

/// In a file of one group, whose data begin at 128 and end at 272.
const CHANGES: [Change; 8] = [
    ("channels", 8, 2, &[0]),
    ("depth", 10, 2, &[0, 12, 17, 40, 0xFFFF]),
    ("rate", 12, 4, &[0, 1]),
    ("frames", 16, 4, &[0, 512, 513, 0xFFFF_FFFF]),
    ("table offset", 20, 4, &[0, 119, 121, 0xFFFF_FFFF]),
    ("data offset", 24, 4, &[0, 119, 127, 129, 132, 0xFFFF_FFFF]),
    ("data size", 28, 4, &[0, 143, 145, 0xFFFF_FFFF]),
    ("block signature", 128, 4, &[0, 0x3E9A_0C17]),
];

/// Entries of three groups, and data without frames.
fn of_tables(random: &mut Random) -> Vec<Case> {
    let good = filled(1, 1100, || noisy(2, random));
    let mut data_alone = file(1, 16, 0, Vec::new());
    data_alone.tail = random.bytes(80);
    let entry = |k: usize, value: u64| set(&good, &[(120 + 4 * k, 4, value)]);
    vec![
        case("no frames, 80 bytes of data", set(&data_alone, &[(28, 4, 80), (120, 4, 80)])),
        case("last entry one less", entry(3, 431)),
        case("last entry one more", entry(3, 433)),
        case("first entry 1", entry(0, 1)),
        case("an entry past the data size", entry(2, 433)),
        case("an entry far past the data size", entry(1, 0xFFFF_FFFF)),
        case("an entry before its start", entry(2, 143)),
        case("an entry equal to its start", entry(2, 144)),
        case("an entry 79 bytes after its start", entry(1, 79)),
        case("a last group of 79 bytes", entry(2, 432 - 79)),
    ]
}

/// Each refusal of decoding in the first, the second and the third of three groups.
fn of_groups(random: &mut Random) -> Vec<Case> {
    let mut cases = Vec::new();
    for (group, (name, channels, fault)) in (0..3).flat_map(|group| FAULTS.iter().map(move |fault| (group, fault))) {
        let mut file = filled(*channels, 1030, || noisy(2, random));
        fault(&mut file.groups[group]);
        cases.push(case(format!("{name}, group {group}"), file.bytes()));
    }
    cases
}

fn of_group_signatures(random: &mut Random) -> Vec<Case> {
    let good = filled(2, 1030, || noisy(2, random));
    let blocks = good.places().blocks;
    let unsigned = |group: usize| set(&good, &[(blocks[group][1], 1, 0)]);
    (0..3).map(|group| case(format!("signature of the second block, group {group}"), unsigned(group))).collect()
}

pub type Fault = fn(&mut [Block]);

/// What is wrong with a group, and with how many channels.
pub const FAULTS: &[(&str, u16, Fault)] = &[
    ("float bit of the second block", 2, |group| group[1].flags ^= 2),
    ("mid/side with one channel", 1, |group| group[0].flags |= 1),
    ("mid/side with three channels", 3, |group| group[0].flags |= 1),
    ("bits word of the second block", 2, |group| group[1].bits = -33),
    ("values that end too soon", 1, |group| group[0].bits = 3),
    ("a header that ends too soon", 2, |group| {
        group[0].bits = -4;
        group[1].run.truncate(120);
    }),
    ("a byte left", 1, |group| group[0].run.push(0)),
    ("a block left", 1, |group| group[0].run.extend([0; 80])),
];

/// From the last check on back to the first one more fails each time, and the earliest is told; 50 fails in all.
fn of_orders(random: &mut Random) -> Vec<Case> {
    let mut file = |channels, frames| File { tail: random.bytes(20), ..filled(channels, frames, || noisy(4, random)) };
    let lists = [
        in_order("opening", OF_OPENING, &file(2, 513), 0, 0),
        in_order("opening without frames", OF_OPENING, &file(2, 0), 0, 0),
        in_order("a first block", OF_FIRST_BLOCK, &file(1, 1100), 2, 0),
        in_order("a later block", OF_LATER_BLOCK, &file(3, 700), 1, 2),
    ];
    lists.into_iter().flatten().collect()
}

fn in_order(name: &str, spoils: &[fn(&mut Call)], file: &File, group: usize, channel: usize) -> Vec<Case> {
    let spec = PcmSpec { channels: 1, bits_per_sample: 16, sample_rate: 44_100 };
    let call = |n| Call::new(spec, Vec::new(), file, group, channel).spoiled(spoils, n);
    (1..=spoils.len()).map(|n| case_in(3, format!("order at {name}, {n} fail"), call(n).file)).collect()
}

/// Exactly enough, one sample more, one less, none; what is wrong with a last group comes before too little room.
fn of_room(random: &mut Random) -> Vec<Case> {
    let mut cases = Vec::new();
    let lists: [(u16, u32, &[usize]); 3] = [(3, 5, &[15, 16, 14, 0]), (1, 513, &[513, 514, 512, 1]), (2, 0, &[0, 1])];
    for (channels, frames, rooms) in lists {
        let mut file = filled(channels, frames, || noisy(2, random));
        let sizes = format!("channels {channels}, frames {frames}");
        cases.extend(rooms.iter().map(|room| case_in(*room, sizes.clone(), file.bytes())));
        if let Some(group) = file.groups.last_mut() {
            group[0].bits = 34;
            cases.push(case_in(1, format!("{sizes}, bits 34"), file.bytes()));
        }
    }
    cases
}

// ---- what is drawn

/// Small files of the maker that the definitions are run on.
fn drawn(random: &mut Random) -> Vec<Case> {
    let mut maker = Maker::new(random.next());
    let files = std::iter::repeat_with(|| maker.question()).filter_map(to_read);
    let small = files.filter(|file| file.len() <= LONGEST_DRAWN);
    small.take(DRAWN).enumerate().map(|(k, file)| case(format!("drawn {k}"), file)).collect()
}

fn to_read(question: Question) -> Option<Vec<u8>> {
    match question {
        Question::Open(file) | Question::Decode(file) => Some(file),
        _ => None,
    }
}
