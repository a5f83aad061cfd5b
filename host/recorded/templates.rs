//! What the re-encoder is asked: document 01's own cases, every width, all that of a template has to stay, every refusal that a run can reach.
use crate::blocks::{at_depth, differences, file, flagged, raw};
use crate::draw::{Draw, Samples};
use crate::encodings::spec;
use crate::faults::put;
use crate::files::{steps, Block, File};
use crate::noisy::begun_run;
use crate::random::Random;
use ncw::{encode_pcm, PcmSpec, StereoMode};

pub struct Reencoding {
    pub name: String,
    pub spec: PcmSpec,
    pub samples: Samples,
    pub template: Vec<u8>,
    /// How many bytes there is room for.
    pub room: usize,
}

type List = fn(&mut Random) -> Vec<Reencoding>;

const SEED: u64 = 20_261_115;

#[rustfmt::skip]
pub fn all() -> Vec<Reencoding> {
    let random = &mut Random::new(SEED);
    let lists: [List; 15] = [
        of_document, of_own, of_others, of_two_groups, of_what_stays, of_flags, of_differences, of_raw,
        of_calls, of_headers, of_tables, of_groups, of_blocks, of_orders, of_room,
    ];
    lists.iter().flat_map(|list| list(random)).collect()
}

/// With room for twelve bytes more than the template has.
fn case(name: &str, spec: PcmSpec, samples: impl Into<Samples>, template: Vec<u8>) -> Reencoding {
    let (name, room) = (name.to_string(), template.len() + 12);
    Reencoding { name, spec, samples: samples.into(), template, room }
}

/// At 44,100, with the template's own channels and depth.
pub fn with(name: &str, samples: impl Into<Samples>, template: &File) -> Reencoding {
    case(name, spec(template.channels, template.depth), samples, template.bytes())
}

/// What the encoder makes of the samples.
fn encoded(spec: PcmSpec, mode: StereoMode, samples: &[i32]) -> Vec<u8> {
    encode_pcm(samples, spec, mode).expect("the samples can be encoded")
}

/// Differences of the samples, and any others after them.
fn begun(width: u32, samples: &[i32], random: &mut Random) -> Block {
    let run = begun_run(&steps(samples), width, random);
    Block { padding: 0xA1B2_C3D4, run, ..differences(samples[0], width, &[]) }
}

/// The samples as they are, any others after them, and any base.
fn begun_raw(width: u32, samples: &[i32], random: &mut Random) -> Block {
    let run = begun_run(samples, width, random);
    Block { base: random.signed(32), padding: 0x0102_0304, run, ..raw(width, &[]) }
}

/// A mono file of one frame with that block.
fn alone(depth: u16, block: Block) -> File {
    file(1, depth, 1, vec![vec![block]])
}

fn drawn(count: usize, bits: u32, random: &mut Random) -> Vec<i32> {
    Samples::Drawn(Draw::signed(bits, random), count).values()
}

/// Numbers of one parity.
fn even(count: usize, bits: u32, random: &mut Random) -> Samples {
    Samples::Drawn(Draw::signed(bits, random).doubled(), count)
}

// ---- what is written

fn of_document(_: &mut Random) -> Vec<Reencoding> {
    let five = encoded(spec(1, 16), StereoMode::Auto, &[5]);
    let five = |sample: i32| case(&format!("a template of 5, sample {sample}"), spec(1, 16), &[sample], five.clone());
    let lowest = || flagged(1, raw(32, &[i32::MIN; 512]));
    let lost = file(2, 16, 1, vec![vec![lowest(), lowest()]]);
    let one = alone(16, raw(1, &[-1; 512]));
    [2, 3, 4, 5, 6, 7]
        .map(five)
        .into_iter()
        .chain([with("mid and side of -2^31", &[0, 0], &lost), with("bits -1", &[0], &one)])
        .collect()
}

/// A template with the samples that it was made of: it comes back.
fn of_own(random: &mut Random) -> Vec<Reencoding> {
    let mut cases = Vec::new();
    for (frames, channels, mode) in [
        (0, 2, StereoMode::Auto),
        (3, 1, StereoMode::Auto),
        (512, 1, StereoMode::Direct),
        (513, 1, StereoMode::Direct),
        (40, 2, StereoMode::MidSide),
        (513, 2, StereoMode::MidSide),
    ] {
        let (spec, samples) = (spec(channels, 16), even(frames * usize::from(channels), 8, random));
        let template = encoded(spec, mode, &samples.values());
        cases.push(case(&format!("{frames} frames, its own"), spec, samples, template));
    }
    cases
}

/// A template with other samples of the same kind.
fn of_others(random: &mut Random) -> Vec<Reencoding> {
    let mut cases = Vec::new();
    for (frames, channels, depth, mode) in
        [(30, 1, 16, StereoMode::Auto), (512, 1, 24, StereoMode::Direct), (30, 2, 24, StereoMode::Direct)]
    {
        let (spec, count) = (spec(channels, depth), frames * usize::from(channels));
        let [old, new] = [9, 7].map(|bits| even(count, bits, random));
        cases.push(case(&format!("{frames} frames, others"), spec, new, encoded(spec, mode, &old.values())));
    }
    cases
}

/// Two groups, the second short, plain and in mid/side.
fn of_two_groups(random: &mut Random) -> Vec<Reencoding> {
    let mut cases = Vec::new();
    for (channels, flags) in [(1, 0), (2, 0), (2, 1)] {
        let mut block = |_| flagged(flags, begun(12, &drawn(9, 9, random), random));
        let groups = (0..2).map(|_| (0..channels).map(&mut block).collect()).collect();
        let template = file(channels, 16, 514, groups);
        let new = even(514 * usize::from(channels), 9, random);
        cases.push(with(&format!("514 frames, {channels} channels, flags {flags}"), new, &template));
    }
    cases
}

/// Signature, unknown bytes, gap, tail, padding words, last differences, padded samples. The list has the sum of whole words, so every length is a
/// multiple of 4.
fn of_what_stays(random: &mut Random) -> Vec<Reencoding> {
    let mut cases = Vec::new();
    for (mark, gap, tail) in [(0x30, 0, 0), (0x31, 5, 3), (0x31, 0, 8), (0x30, 1, 99)] {
        let blocks = vec![begun(9, &[1, 2, 3], random), begun_raw(11, &[4, 5, 6], random)];
        let plain = file(2, 16, 3, vec![blocks]);
        let [unknown, gap, tail] = [88, gap, tail].map(|n| random.bytes(n));
        let template = File { mark, unknown, gap, tail, ..plain };
        cases.push(with(
            &format!("signature {mark:X}, gap {}, tail {}", template.gap.len(), template.tail.len()),
            &[7, 8, 9, 10, 11, 12],
            &template,
        ));
    }
    let last = alone(16, Block { bits: 8, ..differences(7, 8, &[-77; 512]) });
    let full = Samples::Drawn(Draw::signed(6, random), 512);
    cases.push(with("512 frames, any last difference", full, &File { frames: 512, ..last }));
    cases
}

/// The first block's bit decides; the second's stays.
fn of_flags(random: &mut Random) -> Vec<Reencoding> {
    let mut cases = Vec::new();
    for (first, second) in [(0, 0), (0, 1), (1, 0), (1, 1)] {
        let blocks = vec![flagged(first, begun(12, &[10, 20], random)), flagged(second, begun(12, &[30, 40], random))];
        cases.push(with(&format!("flags {first}, {second}"), &[8, 2, -6, 4], &file(2, 16, 2, vec![blocks])));
    }
    cases
}

/// Three samples whose steps the width holds; the step to the first padded one may be too wide for it.
fn of_differences(random: &mut Random) -> Vec<Reencoding> {
    let mut cases = Vec::new();
    for width in 2..=32 {
        let (depth, bits) = (if width < 16 { 16 } else { 24 }, (width - 1).min(15));
        let [old, new] = [0, 1].map(|_| drawn(3, bits, random));
        let template = file(1, depth, 3, vec![vec![begun(width, &old, random)]]);
        cases.push(with(&format!("differences of {width} bits"), &new, &template));
    }
    cases
}

/// The highest, the lowest and any value of the width, where the depth has them.
fn of_raw(random: &mut Random) -> Vec<Reencoding> {
    let mut cases = Vec::new();
    for width in 1..=32 {
        let (depth, half) = (if width < 17 { 16 } else { 24 }, 1_i64 << (width.min(24) - 1));
        let new = [half as i32 - 1, -half as i32, random.signed(width.min(16))];
        let template = file(1, depth, 3, vec![vec![begun_raw(width, &[0, 0, 0], random)]]);
        cases.push(with(&format!("raw of {width} bits"), &new, &template));
    }
    cases
}

// ---- what is refused

/// A template of three frames, and samples that it takes.
fn good(random: &mut Random) -> (File, [i32; 3]) {
    (file(1, 16, 3, vec![vec![begun(12, &[1, 2, 3], random)]]), [4, 5, 6])
}

/// A good template with one thing changed in its bytes.
fn changed(name: &str, random: &mut Random, change: impl FnOnce(&mut Vec<u8>)) -> Reencoding {
    let (template, samples) = good(random);
    let mut bytes = template.bytes();
    change(&mut bytes);
    case(name, spec(1, 16), &samples, bytes)
}

/// By the call alone: 30, 31, 32, and 40 by the template.
fn of_calls(random: &mut Random) -> Vec<Reencoding> {
    let (template, samples) = good(random);
    let bytes = template.bytes();
    let rate = |rate| PcmSpec { sample_rate: rate, ..spec(1, 16) };
    vec![
        case("no channels", spec(0, 16), &samples, bytes.clone()),
        case("three channels", spec(3, 16), &samples, bytes.clone()),
        case("depth 8", spec(1, 8), &samples, bytes.clone()),
        case("depth 32", spec(1, 32), &samples, bytes.clone()),
        case("rate 0", rate(0), &samples, bytes.clone()),
        case("an incomplete frame", spec(2, 16), &samples, bytes.clone()),
        case("a value outside", spec(1, 16), &[4, 5, 40_000], bytes.clone()),
        case("another depth", spec(1, 24), &samples, bytes.clone()),
        case("another rate", rate(1), &samples, bytes.clone()),
        case("a frame less", spec(1, 16), &samples[..2], bytes.clone()),
        case("other channels", spec(2, 16), &[1, 2, 3, 4, 5, 6], bytes),
    ]
}

/// 1, 2, 41.
fn of_headers(random: &mut Random) -> Vec<Reencoding> {
    let mut cases = vec![
        changed("119 bytes", random, |bytes| bytes.truncate(119)),
        changed("no bytes", random, |bytes| bytes.clear()),
        changed("another signature", random, |bytes| bytes[4] = 0x32),
        changed("a byte too few", random, |bytes| bytes.truncate(bytes.len() - 1)),
    ];
    for (name, at, value) in [
        ("table offset 119", 20, 119),
        ("data offset before it", 24, 119),
        ("a gap after the table", 24, 132),
        ("data size more", 28, 785),
    ] {
        cases.push(changed(name, random, |bytes| put(bytes, at, 4, value)));
    }
    cases
}

/// 42, and without frames.
fn of_tables(random: &mut Random) -> Vec<Reencoding> {
    let mut cases = vec![
        changed("first entry 1", random, |bytes| put(bytes, 120, 4, 1)),
        changed("last entry less", random, |bytes| put(bytes, 124, 4, 783)),
    ];
    let group = |random: &mut Random| vec![begun(2, &[0], random)];
    let two = file(1, 16, 513, vec![group(random), group(random)]).bytes();
    for middle in [0, 144, 288, 300] {
        let mut bytes = two.clone();
        put(&mut bytes, 124, 4, middle);
        cases.push(case(&format!("middle entry {middle}"), spec(1, 16), &[0; 513], bytes));
    }
    let none = file(1, 16, 0, Vec::new()).bytes();
    cases.push(case("no frames", spec(1, 16), &[], none.clone()));
    let mut nine = [none, vec![0; 9]].concat();
    put(&mut nine, 28, 4, 9);
    cases.push(case("no frames, data of 9 bytes", spec(1, 16), &[], nine.clone()));
    put(&mut nine, 120, 4, 9);
    cases.push(case("no frames, an entry of 9", spec(1, 16), &[], nine));
    cases
}

/// A group of so few bytes: 43, 34, 1; and one with bytes left: 46.
fn of_groups(random: &mut Random) -> Vec<Reencoding> {
    let mut cases = Vec::new();
    for (length, flags) in [(11, 0), (12, 0), (12, 1), (15, 0), (15, 1), (16, 0), (16, 1), (783, 0)] {
        let short = |bytes: &mut Vec<u8>| {
            bytes.truncate(128 + length);
            bytes[138] = flags;
            put(bytes, 28, 4, length as u64);
            put(bytes, 124, 4, length as u64);
        };
        cases.push(changed(&format!("a group of {length} bytes, flags {flags}"), random, short));
    }
    cases.push(changed("a byte left", random, |bytes| {
        bytes.push(0);
        put(bytes, 28, 4, 785);
        put(bytes, 124, 4, 785);
    }));
    for (first, second) in [(3, 5), (3, 4), (4, 3)] {
        let blocks =
            || vec![flagged(1, begun(12, &[0], &mut Random::new(1))), flagged(1, begun(12, &[0], &mut Random::new(2)))];
        cases.push(with(&format!("mid/side of {first}, {second}"), &[first, second], &file(2, 16, 1, vec![blocks()])));
    }
    cases
}

/// 3, 44, 45, 4, 36.
fn of_blocks(random: &mut Random) -> Vec<Reencoding> {
    let mut cases = vec![changed("another mark", random, |bytes| bytes[128] = 0)];
    for bits in [0, 1, 33, -33, i16::MAX, i16::MIN] {
        cases.push(changed(&format!("bits {bits}"), random, |bytes| put(bytes, 136, 2, u64::from(bits as u16))));
    }
    for flags in [2, 3, 0x8000] {
        cases.push(changed(&format!("flags {flags}"), random, |bytes| put(bytes, 138, 2, flags)));
    }
    let zero = alone(16, at_depth(16, &[0; 512]));
    cases.push(with("bits 0 at the depth", &[0], &zero));
    for (name, samples) in
        [("a step too wide", [0, 2048, 0]), ("a step just held", [0, 2047, 0]), ("a step down too wide", [0, -2049, 0])]
    {
        let (template, _) = good(random);
        cases.push(with(name, &samples, &template));
    }
    for sample in [7, 8, -8, -9] {
        cases.push(with(&format!("raw of 4 bits, {sample}"), &[sample], &alone(16, begun_raw(4, &[0], random))));
    }
    cases
}

/// Two faults: the earlier one is told.
fn of_orders(random: &mut Random) -> Vec<Reencoding> {
    let faults: [(&str, fn(&mut Vec<u8>)); 8] = [
        ("2", |bytes| bytes[0] = 0),
        ("40", |bytes| put(bytes, 12, 4, 1)),
        ("41", |bytes| put(bytes, 20, 4, 119)),
        ("42", |bytes| put(bytes, 124, 4, 1)),
        ("3", |bytes| bytes[128] = 0),
        ("44", |bytes| put(bytes, 136, 2, 1)),
        ("45", |bytes| put(bytes, 138, 2, 2)),
        ("4", |bytes| put(bytes, 136, 2, 33)),
    ];
    let mut cases = Vec::new();
    for (k, (first, spoil)) in faults.iter().enumerate() {
        for (second, also) in &faults[k + 1..] {
            cases.push(changed(&format!("{first} and {second}"), random, |bytes| {
                also(bytes);
                spoil(bytes);
            }));
        }
    }
    cases
}

/// Exactly enough, one byte less, none; and a refusal before 50.
fn of_room(random: &mut Random) -> Vec<Reencoding> {
    let (template, samples) = good(random);
    let length = template.bytes().len();
    let with = |room| Reencoding { room, ..with(&format!("room {room}"), &samples, &template) };
    let wide = Reencoding { room: 0, ..self::with("36 before 50", &[0, 5000, 0], &template) };
    [length, length - 1, 0].map(with).into_iter().chain([wide]).collect()
}
