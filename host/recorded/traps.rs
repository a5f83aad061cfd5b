//! Where a port goes wrong: cases of their own, and which cases of the list hold each of these places.
use crate::blocks::{at_depth, differences, file, filled, flagged, raw};
use crate::encodings::spec;
use crate::faults::put;
use crate::files::{Block, File};
use crate::noisy::{noisy, noisy_raw};
use crate::random::Random;
use crate::tape::{samples_in, Named, Tape};

const SEED: u64 = 20_261_119;

pub fn all(tape: &mut Tape) {
    let random = &mut Random::new(SEED);
    of_openings(tape, random);
    of_gaps(tape, random);
    of_values(tape);
    of_reading(tape, random);
    of_floats(tape);
    of_walks(tape, random);
    of_modes(tape);
    of_widths(tape);
    of_padding(tape);
    of_templates(tape, random);
    let mono = one(1, 16, 2, vec![noisy(12, random)]).bytes();
    of_flags(tape, &mono);
    of_short_groups(tape, &mono);
    of_two_flags(tape, random);
    of_decoded_alone(tape, random);
    of_later_groups(tape, random);
}

/// One group.
fn one(channels: u16, depth: u16, frames: u32, group: Vec<Block>) -> File {
    file(channels, depth, frames, vec![group])
}

/// Opened, decoded with two samples of room more, and the first group once more by a step.
fn read(tape: &mut Tape, name: &str, file: &[u8]) {
    tape.case(format!("trap: {name}"));
    tape.file(file);
    let room = samples_in(file) + 2;
    tape.open();
    tape.decode(room);
    tape.step(0, room);
}

fn changed(file: &[u8], sets: &[(usize, usize, u64)]) -> Vec<u8> {
    let mut bytes = file.to_vec();
    sets.iter().for_each(|(at, count, value)| put(&mut bytes, *at, *count, *value));
    bytes
}

// ---- reading

fn of_openings(tape: &mut Tape, random: &mut Random) {
    let none = File { tail: vec![0; 9], ..file(1, 16, 0, Vec::new()) }.bytes();
    read(tape, "no frames, data size 9, entry 0", &changed(&none, &[(28, 4, 9)]));
    read(tape, "no frames, data size 9, entry 9", &changed(&none, &[(28, 4, 9), (120, 4, 9)]));
    read(tape, "the table ends with the input", &none[..124]);
    read(tape, "a byte of the table is missing", &none[..123]);
    let three = filled(1, 1100, || noisy(2, random)).bytes();
    read(tape, "two groups of 79 bytes", &changed(&three, &[(124, 4, 79), (128, 4, 158)]));
    read(tape, "a group of 80 bytes, values past its end", &changed(&three, &[(124, 4, 80)]));
    let mono = filled(1, 3, || noisy(2, random)).bytes();
    read(tape, "bits 33 in the first block", &changed(&mono, &[(136, 2, 33)]));
    read(tape, "frames 4294967295", &changed(&mono, &[(16, 4, 0xFFFF_FFFF)]));
    read(tape, "a table from byte 119", &from_119(random));
}

/// A good file but for this: its table begins in the header's last byte.
fn from_119(random: &mut Random) -> Vec<u8> {
    let mut bytes = File { tail: vec![0], ..one(1, 16, 2, vec![noisy(12, random)]) }.bytes();
    bytes.remove(119);
    changed(&bytes, &[(20, 4, 119), (24, 4, 127)])
}

/// The table begins at any byte, and nothing reads what lies before it and after the data.
fn of_gaps(tape: &mut Tape, random: &mut Random) {
    for gap in [1, 3, 5, 7] {
        let plain = filled(2, 3, || noisy(2, random));
        let around = File { gap: vec![0xEE; gap], unknown: vec![0xDD; 88], tail: vec![0xCC; gap], ..plain };
        read(tape, &format!("a gap and a tail of {gap} bytes"), &around.bytes());
    }
}

/// Document 01's own values, and what bits 0 and width 1 mean.
fn of_values(tape: &mut Tape) {
    let mono = |depth, frames, block| one(1, depth, frames, vec![block]).bytes();
    read(tape, "width 2, 8D", &mono(16, 4, raw(2, &[1, -1, 0, -2])));
    read(tape, "width 3, 88 C6 FA", &mono(16, 8, raw(3, &[0, 1, 2, 3, -4, -3, -2, -1])));
    read(tape, "code 1 at width 1", &mono(16, 2, raw(1, &[-1, 0])));
    read(tape, "the lowest code at width 32", &mono(32, 2, raw(32, &[i32::MIN, i32::MAX])));
    read(tape, "width 1, all ones from the lowest base", &mono(16, 3, differences(i32::MIN, 1, &[-1; 512])));
    read(tape, "a sum that wraps", &mono(16, 3, differences(i32::MAX, 2, &[1; 512])));
    read(tape, "width 32 in 16 bits", &mono(16, 2, raw(32, &[40_000, -40_000])));
    for depth in [8, 16, 24, 32] {
        let block = Block { base: 77, run: vec![0x81; 64 * usize::from(depth)], ..at_depth(depth, &[]) };
        read(tape, &format!("bits 0 at depth {depth}, bytes 81, base 77"), &mono(depth, 3, block));
    }
    let lowest = || flagged(1, raw(32, &[i32::MIN; 512]));
    read(tape, "mid and side both lowest", &one(2, 32, 2, vec![lowest(), lowest()]).bytes());
}

fn of_reading(tape: &mut Tape, random: &mut Random) {
    let mut with = |channels: u16, sets: &dyn Fn(&mut [Block])| {
        let mut group: Vec<Block> = (0..channels).map(|_| noisy(2, random)).collect();
        sets(&mut group);
        one(channels, 16, 3, group).bytes()
    };
    read(tape, "mid/side of one channel", &with(1, &|group| group[0].flags = 1));
    read(tape, "mid/side of three", &with(3, &|group| group[0].flags = 1));
    read(tape, "mid/side on the second of three", &with(3, &|group| group[1].flags = 1));
    read(tape, "mid/side on the second of two", &with(2, &|group| group[1].flags = 1));
    read(tape, "mid/side on the first of two", &with(2, &|group| group[0].flags = 1));
    read(tape, "float on the second of two", &with(2, &|group| group[1].flags = 2));
    read(tape, "21 before 4", &with(1, &|group| (group[0].flags, group[0].bits) = (1, 33)));
    read(tape, "20 before 4", &with(2, &|group| (group[1].flags, group[1].bits) = (2, -33)));
    read(tape, "4 before 1", &with(1, &|group| group[0].bits = i16::MIN));
    read(tape, "90 channels", &with(90, &|group| group.iter_mut().for_each(|block| *block = raw(1, &[-1; 3]))));
}

/// Sums of f32, rounded once; and document 02's NaNs, which are not the original's.
fn of_floats(tape: &mut Tape) {
    let pair = |mid: &[u32], side: &[u32]| {
        let [mid, side] = [mid, side].map(|list| list.iter().map(|bits| *bits as i32).collect::<Vec<_>>());
        one(2, 32, mid.len() as u32, vec![flagged(3, raw(32, &mid)), flagged(2, raw(32, &side))]).bytes()
    };
    read(tape, "-0 and 0 in float", &pair(&[0x8000_0000, 0, 0x8000_0000], &[0, 0x8000_0000, 0x8000_0000]));
    read(tape, "float sums that are rounded", &pair(&[0x4B80_0000, 0x3F80_0000, 1], &[0x3F80_0000, 0x3380_0001, 1]));
    read(tape, "float sums past the greatest", &pair(&[0x7F7F_FFFF, 0xFF7F_FFFF], &[0x7F7F_FFFF, 0x7F7F_FFFF]));
    let infinity = 0x7F80_0000;
    read(tape, "infinities in float", &pair(&[infinity, infinity, 0xFF80_0000], &[infinity, 0xFF80_0000, 0xFF80_0000]));
    read(tape, "mid is a NaN", &pair(&[0x7FC1_2345, 0x7F80_0001, 0xFF80_0001], &[0x3F80_0000, 0, infinity]));
    read(tape, "side is a NaN", &pair(&[0x3F80_0000, 0, infinity], &[0x7FC1_2345, 0x7F80_0001, 0xFF80_0001]));
    read(tape, "two NaNs", &pair(&[0x7FC0_0007, 0x7F80_0007, 0xFFC0_0007], &[0x7F80_0009, 0xFFC0_0009, 0xFFFF_FFFF]));
    let sixteen = flagged(2, at_depth(16, &[-2, 3, -32_768]));
    read(tape, "float, bits 0 at depth 16", &one(1, 16, 3, vec![sixteen]).bytes());
    let nan = one(1, 32, 2, vec![flagged(2, raw(32, &[0x7F80_0001, -1]))]);
    read(tape, "float, NaNs of one channel stay", &nan.bytes());
}

fn steps(tape: &mut Tape, groups: &[u32], room: usize) {
    for group in groups {
        tape.step(*group, room);
    }
}

fn of_walks(tape: &mut Tape, random: &mut Random) {
    let good = filled(1, 1100, || noisy(2, random)).bytes();
    tape.case("trap: a step past the last group");
    tape.file(&good);
    steps(tape, &[3, 4, u32::MAX], 2);
    tape.case("trap: a step past the last group of bytes that do not open");
    tape.file(&changed(&good, &[(0, 1, 0)]));
    steps(tape, &[0, 3, u32::MAX], 2);
    tape.case("trap: a step behind a damaged group");
    tape.file(&changed(&good, &[(136 + 144 + 8, 2, 34)]));
    steps(tape, &[0, 1, 2, 3], 513);
    tape.decode(1100);
}

// ---- writing

/// 38, then 39, before all others; without frames, and of one channel, 34.
fn of_modes(tape: &mut Tape) {
    tape.case("trap: 38 and 39 come first");
    tape.settings(spec(0, 17));
    tape.samples([40_000, 40_001, 2]);
    let ragged = [(3, 9), (u32::MAX, 12), (0, 9), (1, 10), (2, 11), (2, 12)];
    for (mode, length) in ragged {
        tape.samples_length(length);
        tape.encode(mode, 4);
        tape.reencode(4);
    }
    tape.settings(spec(2, 16));
    tape.samples_length(12);
    tape.case("trap: 31 before 32");
    tape.encode(2, 4);
    tape.case("trap: MidSide of one channel without frames");
    tape.settings(spec(1, 16));
    tape.samples([0; 0]);
    tape.encode(2, 4);
    tape.case("trap: Auto and Direct without frames");
    tape.encode(0, 124);
    tape.encode(1, 124);
}

/// Equal samples have width 2; a tie is direct; by depth, not by width, a block is raw.
fn of_widths(tape: &mut Tape) {
    let mut write = |name: &str, channels, depth, samples: &[i32], room| {
        tape.case(format!("trap: {name}"));
        tape.settings(spec(channels, depth));
        tape.samples(samples);
        tape.encode(1, room);
        tape.encode(2, room);
        if tape.encode(0, room) {
            tape.keep_written();
            tape.open();
            tape.decode(samples.len());
        }
    };
    write("equal samples have width 2", 1, 16, &[7; 600], 428);
    write("padding by the last sample", 1, 16, &[30_000, 30_001], 272);
    write("a tie is direct", 2, 16, &[5, 5], 416);
    write("0, 16383", 1, 16, &[0, 16_383], 1_104);
    write("0, 16384", 1, 16, &[0, 16_384], 1_168);
    write("0, 4194303", 1, 24, &[0, 4_194_303], 1_616);
    write("0, 4194304", 1, 24, &[0, 4_194_304], 1_680);
    write("the pair 3, 5", 2, 16, &[3, 5], 416);
    write("the pair 3, 4", 2, 16, &[3, 4], 416);
    write("the pair -32768, 32766", 2, 16, &[-32_768, 32_766], 416);
}

// ---- templates

fn rewrite(tape: &mut Tape, name: &str, depth: u16, samples: &[i32], template: &[u8]) {
    tape.case(format!("trap: {name}"));
    tape.settings(spec(u16::from(template[8]), depth));
    tape.samples(samples);
    tape.file(template);
    if tape.reencode(template.len() + 4) {
        tape.keep_written();
        tape.decode(samples.len());
    }
}

fn of_padding(tape: &mut Tape) {
    let five = |rest: i32| one(1, 16, 1, vec![differences(5, 2, &[rest; 512])]).bytes();
    for sample in [3, 4, 5, 6, 7, 8] {
        let name = format!("the first padded difference, a template of 5, sample {sample}");
        rewrite(tape, &name, 16, &[sample], &five(0));
    }
    rewrite(tape, "what follows the active samples stays", 16, &[6], &five(1));
    let full = one(1, 16, 512, vec![differences(5, 3, &[-3; 512])]).bytes();
    rewrite(tape, "the last difference stays", 16, &[1; 512], &full);
}

fn of_templates(tape: &mut Tape, random: &mut Random) {
    let based = Block { base: 1234, padding: 99, ..noisy_raw(7, random) };
    rewrite(tape, "the base of a raw block stays", 16, &[9, -9], &one(1, 16, 2, vec![based]).bytes());
    rewrite(tape, "bits -1", 16, &[-1, 0], &one(1, 16, 2, vec![raw(1, &[0; 512])]).bytes());
    let lowest = || flagged(1, raw(32, &[i32::MIN; 512]));
    rewrite(tape, "law three's exception", 16, &[0, 0], &one(2, 16, 1, vec![lowest(), lowest()]).bytes());
    let mono = one(1, 16, 3, vec![noisy(12, random)]).bytes();
    for (name, at, count, value) in [("depth 8", 10, 2, 8), ("depth 32", 10, 2, 32), ("rate 0", 12, 4, 0)] {
        rewrite(tape, &format!("a template of {name}"), 16, &[1, 2, 3], &changed(&mono, &[(at, count, value)]));
    }
    rewrite(tape, "a template's table from byte 119", 16, &[1, 2], &from_119(random));
    let two = filled(1, 513, || noisy(2, random)).bytes();
    rewrite(tape, "an empty group", 16, &[0; 513], &changed(&two, &[(124, 4, 0)]));
    let none = File { tail: vec![0; 12], ..file(1, 16, 0, Vec::new()) }.bytes();
    rewrite(tape, "no frames, an entry of 9", 16, &[], &changed(&none, &[(28, 4, 9), (120, 4, 9)]));
}

/// Flags come before the signature, and 44, 45, 4 in that order.
fn of_flags(tape: &mut Tape, mono: &[u8]) {
    for (name, sets) in [
        ("flag bit and another signature of one channel", &[(128, 1, 0), (138, 2, 1)][..]),
        ("bits 0 and flags 2", &[(136, 2, 0), (138, 2, 2)]),
        ("bits 33 and flags 2", &[(136, 2, 33), (138, 2, 2)]),
        ("bits 33", &[(136, 2, 33)]),
    ] {
        rewrite(tape, name, 16, &[4, 5], &changed(mono, sets));
    }
}

/// Too short for the flags, and for the header.
fn of_short_groups(tape: &mut Tape, mono: &[u8]) {
    for (length, flags) in [(11, 1), (12, 0), (12, 1), (15, 0), (15, 1), (16, 0)] {
        let sets = [(28, 4, length), (124, 4, length), (138, 2, flags)];
        let name = format!("a group of {length} bytes, flags {flags}");
        rewrite(tape, &name, 16, &[4, 5], &changed(mono, &sets));
    }
}

/// 35 comes before the blocks; the first block's bit decides, and the second's stays.
fn of_two_flags(tape: &mut Tape, random: &mut Random) {
    let stereo = one(2, 16, 1, vec![differences(3, 12, &[0; 512]), noisy_raw(12, random)]).bytes();
    for (flags, beside, samples) in [(3, 0, [4, 5]), (3, 0, [4, 6]), (0, 1, [4, 5]), (1, 0, [4, 6]), (1, 0, [4, 5])] {
        let sets = [(138, 2, flags), (128 + 16 + 768 + 10, 2, beside)];
        let name = format!("flags {flags} and {beside}, samples {samples:?}");
        rewrite(tape, &name, 16, &samples, &changed(&stereo, &sets));
    }
}

/// What is read and is no template; what is read and can't be encoded.
fn of_decoded_alone(tape: &mut Tape, random: &mut Random) {
    for (name, block) in [
        ("bits 0", at_depth(16, &[3, 4])),
        ("bits 1", noisy(1, random)),
        ("flags FFFC", flagged(0xFFFC, noisy(2, random))),
        ("float", flagged(2, noisy(2, random))),
        ("samples outside the depth", raw(32, &[40_000, 4])),
    ] {
        tape.case(format!("trap: read, but no template: {name}"));
        tape.file(&one(1, 16, 2, vec![Block { base: 5, ..block }]).bytes());
        tape.settings(spec(1, 16));
        tape.open();
        tape.decode(2);
        tape.keep_read();
        tape.reencode(tape.file_bytes().len());
        tape.encode(0, 272);
    }
}

/// A refusal in the last group, when there was room for all before it: nothing is written.
fn of_later_groups(tape: &mut Tape, random: &mut Random) {
    let two = filled(1, 600, || noisy(12, random)).bytes();
    let last = 132 + 16 + 768;
    tape.case("trap: the last group is refused, decoding");
    tape.file(&changed(&two, &[(last + 8, 2, 33)]));
    tape.decode(600);
    tape.case("trap: the last group is refused, re-encoding");
    tape.settings(spec(1, 16));
    tape.samples([1; 600]);
    tape.reencode(two.len());
    tape.case("trap: the last group is refused, encoding");
    tape.settings(spec(2, 16));
    let odd: Vec<i32> = (0..1200).map(|k| i32::from(k == 1199)).collect();
    tape.samples(odd);
    tape.encode(2, 1_000);
    tape.case("trap: the last sample is outside the depth");
    tape.settings(spec(1, 16));
    let outside: Vec<i32> = (0..1200).map(|k| if k == 1199 { 32_768 } else { 0 }).collect();
    tape.samples(outside);
    tape.encode(0, 1_000);
    tape.reencode(two.len());
}

// ---- which cases hold which places

/// The cases whose names begin so, for each place; one that has none is missing.
pub fn table(cases: &[Named]) -> Vec<(&'static str, Vec<usize>)> {
    let begins = |case: &Named, names: &[&str]| names.iter().any(|name| case.name.starts_with(name));
    let items = |names: &[&str]| cases.iter().filter(|case| begins(case, names)).map(|case| case.item).collect();
    TRAPS.iter().map(|(trap, names)| (*trap, items(names))).collect()
}

#[rustfmt::skip]
const TRAPS: &[(&str, &[&str])] = &[
    ("opening: the table can't run past the input", &["trap: the table ends with", "trap: a byte of the table"]),
    ("opening: without groups entry 0 is the last one: 16, 17", &["trap: no frames, data size 9"]),
    ("opening: the last group ends with the data size", &["read: a last group of 79"]),
    ("opening: 19 in one pass", &["trap: two groups of 79", "read: an entry"]),
    ("opening, template: a table offset of 119", &["trap: a table from", "trap: a template's table from"]),
    ("opening: 3 without another 1", &["read: block signature"]),
    ("opening: bytes before the table and after the data", &["trap: a gap and a tail", "read: mark"]),
    ("opening: bits 33 in the first block", &["trap: bits 33 in the first", "read: bits 33, group 0"]),
    ("opening: the greatest frame count", &["trap: frames 4294967295"]),
    ("decoding: 1 is against the group's end", &["trap: a group of 80 bytes, values", "read: values that end too soon"]),
    ("decoding: 20, 21, 4, 1 in that order", &["trap: 21 before 4", "trap: 20 before 4", "trap: 4 before 1", "order: a first block", "order: a later block"]),
    ("decoding: 21 for every count but two", &["trap: mid/side of one channel", "trap: mid/side of three", "trap: mid/side on the second of three"]),
    ("decoding: bits 0 is raw at the depth, base ignored", &["trap: bits 0 at depth"]),
    ("decoding: width 1", &["trap: width 1, all ones", "trap: code 1 at width 1"]),
    ("decoding: samples outside the depth", &["trap: width 32 in 16 bits", "trap: read, but no template: samples outside"]),
    ("decoding: the other flag bits", &["read: every other bit", "trap: read, but no template: flags FFFC"]),
    ("decoding: float sums and zeros", &["trap: -0 and 0", "trap: float sums", "read: float, mid/side"]),
    ("decoding: float at any depth", &["trap: float, bits 0 at depth 16"]),
    ("decoding: a NaN of mid or side goes on", &["trap: mid is", "trap: side is", "read: float, mid/side, NaNs"]),
    ("decoding: of two NaNs mid's", &["trap: two NaNs"]),
    ("decoding: a NaN of infinities", &["trap: infinities in float"]),
    ("decoding: NaNs without mid/side", &["trap: float, NaNs"]),
    ("decoding: many channels", &["trap: 90 channels"]),
    ("walk: past the last group", &["trap: a step past the last group"]),
    ("walk: a refused step does not advance, others are read", &["trap: a step behind a damaged group", "walk: bits word"]),
    ("encoding: 34 before the samples, and without frames", &["trap: MidSide of one channel without frames", "encode: 34 before 50"]),
    ("encoding: 35 in a later group", &["trap: the last group is refused, encoding", "encode: 514 frames, parity differs"]),
    ("encoding: 32 in a later group", &["trap: the last sample is outside"]),
    ("encoding: padding by the last sample", &["trap: padding by the last", "encode: a last sample far", "encode: a short last group", "encode: a pair far"]),
    ("encoding: the least width is 2", &["trap: equal samples", "encode: one sample"]),
    ("encoding: a tie is direct", &["trap: a tie is direct", "encode: the pair 5, 5"]),
    ("encoding: raw where the width is the depth", &["trap: 0, 16383", "trap: 0, 16384", "trap: 0, 4194303", "trap: 0, 4194304"]),
    ("encoding: differences wrap, and their width is that of the wrapped", &["encode: depth 32, 2147483647 then", "encode: depth 32, -2147483648 then"]),
    ("encoding: mid and side of exact sums, whose differences wrap", &["encode: depth 32, the pair", "encode: mid from end", "encode: side from end"]),
    ("encoding: raw at 8 and at 32 bits", &["encode: depth 8, 0 then", "encode: depth 32, 0 then"]),
    ("encoding: Auto of three channels is direct", &["encode: two of three alike"]),
    ("encoding: eight channels, and not nine", &["settings: channels 8", "encode: nine channels"]),
    ("encoding: 34 of three channels after 31 and 32", &["encode: three channels, 3"]),
    ("re-encoding: 30 for what encoding alone takes", &["settings: channels", "re-encode: three channels", "re-encode: depth 8", "re-encode: depth 32"]),
    ("boundary: 38, then 39, before all others", &["trap: 38 and 39"]),
    ("template: flags before signature and header", &["trap: flag bit and another", "trap: a group of 1", "re-encode: a group of 1"]),
    ("template: 44, 45, 4 in that order", &["trap: bits 0 and flags 2", "trap: bits 33 and flags 2", "re-encode: 44 and 45", "re-encode: 45 and 4"]),
    ("template: flags 3, 35 before 45", &["trap: flags 3 and 0"]),
    ("template: strictly rising", &["trap: an empty group", "trap: no frames, an entry of 9", "re-encode: middle entry"]),
    ("template: 40 for what opening refuses", &["trap: a template of depth", "trap: a template of rate"]),
    ("template: the first padded difference", &["trap: the first padded difference", "re-encode: a template of 5"]),
    ("template: differences after the active ones stay", &["trap: what follows the active", "re-encode: differences of"]),
    ("template: the last difference stays", &["trap: the last difference", "re-encode: 512 frames, any last"]),
    ("template: the base of a raw block stays", &["trap: the base of a raw", "re-encode: raw of"]),
    ("template: the first block's bit decides, the second's stays", &["trap: flags 0 and 1", "trap: flags 1 and 0", "re-encode: flags 0,", "re-encode: flags 1,"]),
    ("template: signature, unknown bytes, gap, tail stay", &["re-encode: signature"]),
    ("template: read, but no template", &["trap: read, but no template"]),
    ("template: bits -1", &["trap: bits -1", "re-encode: bits -1"]),
    ("template: law three's exception", &["trap: law three", "re-encode: mid and side of -2^31"]),
    ("36: the first place of a block, and the last", &["re-encode: misfit, a value at 0:", "re-encode: misfit, a value at 511:", "re-encode: misfit, a difference at 0:", "re-encode: misfit, a difference at 510:"]),
    ("36: a difference has the place of its earlier sample", &["re-encode: misfit, a spike", "re-encode: misfit, a difference at"]),
    ("36: the first that misses, not the largest, nor the last", &["re-encode: misfit, several"]),
    ("36: what just fits, beside what just doesn't", &["re-encode: misfit, limits", "re-encode: misfit, a value of", "re-encode: misfit, a difference of"]),
    ("36: the difference to the first padded sample", &["re-encode: misfit, padded", "trap: the first padded difference", "re-encode: a template of 5"]),
    ("36: a difference that wraps", &["re-encode: misfit, padded, far away"]),
    ("36: of mid and side, by the first block's bit", &["re-encode: misfit, mid/side"]),
    ("36: channel 0 before channel 1, at a higher place too", &["re-encode: misfit, channels", "re-encode: misfit, mid/side, mid at 2, side at 1"]),
    ("36: the first group before the second, counted in the block", &["re-encode: misfit, groups"]),
    ("36: whatever is wrong behind it", &["re-encode: misfit, behind it"]),
    ("frames: between any two borders of groups", &["frames: borders"]),
    ("frames: 51 is of the sum, and comes with count 0 too", &["frames: past the end, channels 1", "frames: a file of no frames"]),
    ("frames: 51 after all of opening, and before any group and 50", &["read: block signature", "frames: signature of group 0, channel 0", "frames: past the end, channels 1, every"]),
    ("frames: count 0 touches no group", &["frames: values that end too soon", "frames: past the end, channels 2, every"]),
    ("frames: a range beside a damaged group", &["frames: a byte left", "frames: bits word of the second block", "frames: the waveform page, all other"]),
    ("frames: a touched group is checked whole", &["frames: a byte left", "frames: a block left", "frames: float bit of the second block", "order: a later block"]),
    ("frames: of the first block only signature and float bit", &["frames: float bit of the first", "frames: float bit of all", "frames: mid/side bit of the first block", "frames: bits word of the first block", "frames: base and padding"]),
    ("frames: an untouched group of one channel with the mid/side bit", &["frames: mid/side with one channel"]),
    ("frames: 50 last, for the frames asked for", &["frames: room", "frames: bits word of the second block, group 1"]),
    ("frames: float, mid/side", &["frames: float, mid/side"]),
    ("nothing is written before a later group refuses", &["trap: the last group is refused", "frames: bits word, group 1"]),
    ("deciding mid/side by the second block", &["trap: mid/side on the second of two", "read: mid/side on the second"]),
    ("document 01: no frames", &["encode: no frames", "read: no frames"]),
    ("document 01: one sample", &["encode: one sample", "read: one sample"]),
    ("document 01: packed values", &["trap: width 2, 8D", "trap: width 3, 88", "trap: the lowest code"]),
    ("document 01: a sum that wraps", &["trap: a sum that wraps"]),
    ("document 01: pairs", &["trap: the pair"]),
    ("document 01: 512 and 513 frames", &["encode: 512 frames", "encode: 513 frames", "read: 512 frames", "read: 513 frames"]),
    ("document 01: groups of 79 and 80 bytes", &["read: a mono group of"]),
    ("document 01: mid and side both lowest", &["trap: mid and side both lowest", "read: mid and side both lowest"]),
];
