//! Peaks: summaries of files built, checked and read; summaries of any numbers; and what is refused of them, one fault or two.
use crate::answers::building;
use crate::blocks::{at_depth, differences, file, filled, flagged, raw};
use crate::cases::{set, FAULTS};
use crate::files::File;
use crate::noisy::{noisy, noisy_raw};
use crate::peaks::{folded, read, sevens, Summary};
use crate::random::Random;
use crate::tape::{Tape, MOST_SAMPLES, SPACE};

const SEED: u64 = 20_261_121;

/// How many summaries of any numbers are drawn.
const DRAWN: usize = 30;

const MOST: u32 = u32::MAX;

pub fn all(tape: &mut Tape) {
    let random = &mut Random::new(SEED);
    of_sizes(tape, random);
    of_values(tape);
    of_padding(tape);
    of_pairs_of_channels(tape, random);
    of_float(tape, random);
    of_damaged_files(tape, random);
    of_changes(tape, random);
    of_numbers(tape);
    of_counts(tape);
    of_orders(tape);
    of_any_numbers(tape, random);
}

fn named(tape: &mut Tape, name: impl AsRef<str>) {
    tape.case(format!("peaks: {}", name.as_ref()));
}

/// The last answer is that refusal, which names no place.
fn refused_by(tape: &Tape, number: u32) {
    said(tape, &format!(" {number} at 0, 0"));
}

fn said(tape: &Tape, end: &str) {
    let answers = &tape.cases.last().expect("a case").answers;
    assert!(answers.last().is_some_and(|answer| answer.ends_with(end)), "{:?}, not{end}", answers.last());
}

fn yes(tape: &mut Tape) {
    tape.check();
    said(tape, " 1 sum 0");
}

fn no(tape: &mut Tape) {
    tape.check();
    said(tape, " 0 sum 0");
}

/// In whole words.
fn room_for(summary: &[u8]) -> usize {
    4 * summary.len().div_ceil(4)
}

/// Built in no more room than its words take, and kept; without room where it is refused.
fn built(tape: &mut Tape) -> Option<Summary> {
    let (told, summary) = building(tape.file_bytes(), SPACE);
    let room = if told.accepted() { room_for(&summary) } else { 0 };
    tape.build(room).then(|| {
        tape.keep_read();
        read(&summary).expect("a summary that was built")
    })
}

/// Built, checked and read: all pairs, and the last. What is refused is refused by the check too.
pub fn of_any(tape: &mut Tape) {
    match built(tape) {
        Some(summary) => {
            yes(tape);
            tape.pairs(2 * summary.pairs.len());
            let last = (summary.groups().saturating_sub(1), summary.channels - 1);
            tape.pair(last.0, last.1, 3);
        }
        None => _ = tape.check(),
    }
}

// ---- files

/// From none to three groups, the last of them short or whole, of one to five channels.
fn of_sizes(tape: &mut Tape, random: &mut Random) {
    for channels in 1..=5_u16 {
        for frames in [0, 1, 512, 513, 1300] {
            named(tape, format!("channels {channels}, frames {frames}"));
            let other = filled(channels, frames, || noisy_raw(random.between(1, 9) as u32, random)).bytes();
            let mut block = || {
                let width = random.between(1, 9) as u32;
                if random.once_in(2) {
                    noisy(width, random)
                } else {
                    noisy_raw(width, random)
                }
            };
            tape.file(&filled(channels, frames, &mut block).bytes());
            of_rooms(tape);
            let summary = built(tape).expect("a summary");
            yes(tape);
            of_borders(tape, &summary);
            let samples = 2 * summary.pairs.len();
            [samples, samples + 3, samples.saturating_sub(1), 0].iter().for_each(|room| _ = tape.pairs(*room));
            tape.file(&other);
            if frames == 0 {
                yes(tape)
            } else {
                no(tape)
            }
        }
    }
}

/// One byte short, none, as much as any summary of so many pairs takes, and one byte less than that.
fn of_rooms(tape: &mut Tape) {
    let summary = building(tape.file_bytes(), SPACE).1;
    let pairs = read(&summary).expect("a summary that was built").pairs.len();
    let longest = 10 * pairs + 10;
    [summary.len() - 1, 0].iter().for_each(|room| _ = tape.build(*room));
    [longest, longest - 1]
        .iter()
        .filter(|room| room_for(&summary) <= **room / 4 * 4)
        .for_each(|room| _ = tape.build(*room));
}

/// The first and the last of group and channel; past either, also where the pair's number is one that there is.
fn of_borders(tape: &mut Tape, summary: &Summary) {
    let (groups, channels) = (summary.groups(), summary.channels);
    for (group, channel) in [(0, 0), (0, channels - 1), (groups.saturating_sub(1), 0), (groups / 2, channels / 2)] {
        tape.pair(group, channel, 2);
    }
    for (group, channel) in [(0, channels), (0, MOST), (groups, 0), (groups, channels), (MOST, channels - 1)] {
        tape.pair(group, channel, 2);
        refused_by(tape, 67);
    }
    tape.pair(groups, 0, 0);
    refused_by(tape, 67);
    if groups > 0 {
        tape.pair(0, 0, 1);
        refused_by(tape, 50);
    }
}

/// The lowest and the highest of 32 bits, and of every number of bytes that a number takes; a sum that wraps.
fn of_values(tape: &mut Tape) {
    let limits = [0, 63, 64, 8_191, 8_192, 1_048_575, 1_048_576, 134_217_727, 134_217_728, i32::MAX];
    for limit in limits {
        named(tape, format!("samples {limit} and {}", !limit));
        for values in [[limit, !limit], [!limit, limit], [limit; 2], [!limit; 2]] {
            tape.file(&file(1, 32, 2, vec![vec![at_depth(32, &values)]]).bytes());
            of_any(tape);
        }
    }
    named(tape, "a sum that wraps");
    tape.file(&file(1, 16, 2, vec![vec![differences(i32::MAX, 2, &[1; 512])]]).bytes());
    of_any(tape);
}

/// Behind the last frame there are lower and higher values: they do not count. The extremes are the first and the last frame, in either order.
fn of_padding(tape: &mut Tape) {
    for (frames, low) in [1, 2, 300, 511, 512].into_iter().flat_map(|frames| [(frames, 0), (frames, frames - 1)]) {
        named(tape, format!("frames {frames}, the lowest {low}"));
        let value = |k: usize| match k {
            k if frames <= k => {
                if k % 2 == 0 {
                    -30_000
                } else {
                    30_000
                }
            }
            k if k == low => -200,
            k if k + low + 1 == frames => 300,
            k => k as i32 % 100,
        };
        let values: Vec<i32> = (0..512).map(value).collect();
        let turned: Vec<i32> = values.iter().map(|value| 5 - value).collect();
        let group = || vec![raw(16, &values), raw(16, &turned)];
        let whole = || vec![raw(16, &[7; 512]), raw(16, &[-7; 512])];
        tape.file(&file(2, 16, frames as u32, vec![group()]).bytes());
        of_any(tape);
        tape.file(&file(2, 16, 512 + frames as u32, vec![whole(), group()]).bytes());
        of_any(tape);
    }
}

/// Mid and side, in the first group, in the second, in both.
fn of_pairs_of_channels(tape: &mut Tape, random: &mut Random) {
    for flags in [[1, 0], [0, 1], [1, 1]] {
        named(tape, format!("mid/side {flags:?}"));
        let groups = flags.map(|flags| vec![flagged(flags, noisy_raw(9, random)), noisy_raw(9, random)]).into();
        tape.file(&file(2, 16, 700, groups).bytes());
        of_any(tape);
    }
}

/// 66 before 50, and whatever the bytes are.
fn of_float(tape: &mut Tape, random: &mut Random) {
    for (channels, frames) in [(1, 3), (2, 600)] {
        named(tape, format!("float, channels {channels}"));
        tape.file(&filled(channels, frames, || flagged(2, noisy_raw(32, random))).bytes());
        [0, 4, 400].iter().for_each(|room| {
            tape.build(*room);
            refused_by(tape, 66);
        });
        for bytes in [&[][..], &[0x80, 0], &[3, 1, 0, 0]] {
            tape.summary(bytes);
            tape.check();
            refused_by(tape, 66);
        }
    }
}

/// Each refusal of decoding in each of three groups, with and without room; in float files too, where it comes before 66.
fn of_damaged_files(tape: &mut Tape, random: &mut Random) {
    for (group, (name, channels, fault)) in (0..3).flat_map(|group| FAULTS.iter().map(move |fault| (group, fault))) {
        for float in [0, 2] {
            let mut long = filled(*channels, 1030, || flagged(float, noisy(2, random)));
            named(tape, format!("{name}, group {group}, float bit {float}"));
            tape.file(&long.bytes());
            built(tape);
            fault(&mut long.groups[group]);
            tape.file(&long.bytes());
            [0, 100].iter().for_each(|room| _ = tape.build(*room));
            tape.check();
        }
    }
    let good = filled(2, 1030, || noisy(2, random));
    for (group, blocks) in good.places().blocks.iter().enumerate() {
        named(tape, format!("signature of the second block, group {group}"));
        tape.file(&set(&good, &[(blocks[1], 1, 0)]));
        tape.build(100);
        tape.check();
    }
}

// ---- a summary that is not that file's

/// Two groups of two channels: the samples make numbers of one byte and of two.
fn stereo(random: &mut Random) -> File {
    let mut block = |width| noisy_raw(width, random);
    let groups = [[4, 9], [9, 4]].map(|widths| widths.map(&mut block).into()).into();
    file(2, 16, 600, groups)
}

/// Cut at every byte, every byte changed, and bytes behind it: no, and read as far as that goes.
fn of_changes(tape: &mut Tape, random: &mut Random) {
    let file = stereo(random).bytes();
    named(tape, "a summary cut");
    tape.file(&file);
    built(tape).expect("a summary");
    yes(tape);
    let good = tape.sample_bytes().to_vec();
    for length in 0..good.len() {
        tape.summary(&good[..length]);
        no(tape);
        tape.pair(0, 0, 2);
        refused_by(tape, 60);
        tape.pairs(8);
        refused_by(tape, 60);
    }
    named(tape, "a byte changed");
    for place in 0..good.len() {
        for flips in [1, 0x80] {
            let mut bytes = good.clone();
            bytes[place] ^= flips;
            tape.summary(&bytes);
            no(tape);
            tape.pair(1, 0, 2);
            tape.pairs(8);
        }
    }
    named(tape, "bytes behind");
    for behind in [&[0][..], &[0x80], &[0x80, 0], &[5, 5], &[0; 40]] {
        tape.summary(&[&good, behind].concat());
        no(tape);
        tape.pair(0, 0, 2);
        refused_by(tape, 63);
        tape.pairs(8);
        refused_by(tape, 63);
    }
}

// ---- summaries of any numbers

fn bytes_of(numbers: &[u64]) -> Vec<u8> {
    numbers.iter().flat_map(|number| sevens(*number)).collect()
}

/// Frames, channels, and of each pair the smallest and the largest.
fn summary_of(frames: u64, channels: u64, pairs: &[(i32, i32)]) -> Vec<u8> {
    let pairs = pairs.iter().flat_map(|pair| [folded(pair.0), folded(pair.1)]);
    bytes_of(&[frames, channels].into_iter().chain(pairs).collect::<Vec<_>>())
}

/// Both ways of reading are refused by that number, before 67 and 50.
fn is_refused(tape: &mut Tape, bytes: &[u8], number: u32) {
    tape.summary(bytes);
    tape.pairs(0);
    refused_by(tape, number);
    for (group, room) in [(0, 2), (MOST, 0)] {
        tape.pair(group, 0, room);
        refused_by(tape, number);
    }
}

/// A number in a form that is refused, and by which.
const BAD: [(&[u8], u32); 8] = [
    (&[0x80, 0], 61),
    (&[0xFF, 0xFF, 0xFF, 0], 61),
    (&[0x80, 0x80, 0x80, 0x80, 0], 61),
    (&[0x80, 0x80, 0x80, 0x80, 16], 62),
    (&[0xFF, 0xFF, 0xFF, 0xFF, 0x1F], 62),
    (&[0x80, 0x80, 0x80, 0x80, 0x80], 62),
    (&[0xFF, 0xFF, 0xFF, 0xFF, 0xFF, 1], 62),
    (&[0x81, 0x80, 0x80, 0x80, 0x70], 62),
];

/// In place of each of the numbers: frames, channels, and those of two pairs.
fn of_numbers(tape: &mut Tape) {
    let numbers = [5, 2, 3, 4, 1, 300].map(sevens);
    for (bad, number) in BAD {
        named(tape, format!("the number {bad:02X?}"));
        for place in 0..numbers.len() {
            let mut changed = numbers.clone();
            changed[place] = bad.to_vec();
            is_refused(tape, &changed.concat(), number);
        }
    }
    named(tape, "numbers that end too soon");
    for cut in [&[][..], &[0x80], &[0xFF, 0xFF], &[0x80; 3], &[0xFF; 4]] {
        for place in 0..numbers.len() {
            is_refused(tape, &[&numbers[..place].concat(), cut].concat(), 60);
        }
    }
    named(tape, "smallest above largest");
    for (smallest, largest) in [(1, 0), (0, -1), (i32::MAX, i32::MIN), (-1, -2), (64, 63)] {
        is_refused(tape, &summary_of(5, 2, &[(smallest, largest), (0, 0)]), 64);
        is_refused(tape, &summary_of(5, 2, &[(0, 0), (smallest, largest)]), 64);
    }
}

/// No channels; no frames; many of either, so that products and pairs' numbers take more than 32 bits.
fn of_counts(tape: &mut Tape) {
    named(tape, "no channels");
    for frames in [0, 1, 600, MOST.into()] {
        is_refused(tape, &summary_of(frames, 0, &[]), 10);
        is_refused(tape, &summary_of(frames, 0, &[(0, 0)]), 10);
    }
    named(tape, "no frames");
    for channels in [1, 2, 65_536, MOST.into()] {
        tape.summary(&summary_of(0, channels, &[]));
        tape.pairs(0);
        tape.pairs(2);
        for (group, channel) in [(0, 0), (0, MOST), (MOST, 0)] {
            tape.pair(group, channel, 2);
            refused_by(tape, 67);
        }
    }
    named(tape, "more pairs than there are");
    for (frames, channels) in [(MOST, MOST), (1, MOST), (MOST, 1), (513, 1 << 31), (1 << 31, 1024), (1 << 25, 1 << 16)]
    {
        is_refused(tape, &summary_of(frames.into(), channels.into(), &[(1, 2), (3, 4)]), 60);
    }
    named(tape, "many channels");
    let pairs: Vec<(i32, i32)> = (0..2 * 300).map(|k| (k - 300, 3 * k)).collect();
    tape.summary(&summary_of(513, 300, &pairs));
    [1_200, 1_199].iter().for_each(|room| _ = tape.pairs(*room));
    for (group, channel) in [(0, 0), (0, 299), (1, 0), (1, 299), (1, 256), (0, 255)] {
        assert!(tape.pair(group, channel, 2));
    }
    for (group, channel) in [(0, 300), (0, 599), (1, 300), (2, 0), (0, 65_536), (1, 65_536)] {
        tape.pair(group, channel, 2);
        refused_by(tape, 67);
    }
    named(tape, "a pair's number that wraps");
    tape.summary(&summary_of(600, 2, &[(1, 2), (3, 4), (5, 6), (7, 8)]));
    for (group, channel) in [(1 << 31, 0), (1 << 31, 1), ((1 << 31) + 1, 0), (MOST, 2), (0, 2), (0, 3), (1, MOST)] {
        tape.pair(group, channel, 2);
        refused_by(tape, 67);
    }
}

/// Two faults at once: which of them is told.
fn of_orders(tape: &mut Tape) {
    let [long, large, cut, crossed] = [&[0x80, 0][..], &[0x80, 0x80, 0x80, 0x80, 16], &[0x80], &[4, 2]];
    let faults = [(long, 61), (large, 62), (crossed, 64)];
    let later = [(long, 61), (large, 62), (crossed, 64), (cut, 60)];
    named(tape, "order: a fault in a pair, and one in a later pair");
    for (first, number) in faults {
        for (second, _) in later {
            is_refused(tape, &[&[5, 2], pair_with(first).as_slice(), &pair_with(second)].concat(), number);
        }
    }
    named(tape, "order: a fault in either number of a pair");
    for ((first, number), (second, other)) in [(long, 61), (large, 62)]
        .into_iter()
        .flat_map(|first| [(long, 61), (large, 62), (cut, 60)].map(|it| (first, it)))
    {
        is_refused(tape, &[&[5, 1], first, second].concat(), number);
        is_refused(tape, &[&[5, 1, 8], second].concat(), other);
        is_refused(tape, &[first, second].concat(), number);
        is_refused(tape, &[&[5], first, second].concat(), number);
    }
    named(tape, "order: no channels, and a fault behind or before them");
    for (behind, _) in later {
        is_refused(tape, &[&[5, 0], behind].concat(), 10);
    }
    is_refused(tape, &[long, &[0]].concat(), 61);
    is_refused(tape, &[large, &[0]].concat(), 62);
    is_refused(tape, &[&[5], long].concat(), 61);
    named(tape, "order: bytes behind, and a fault before them");
    for (fault, number) in faults {
        is_refused(tape, &[&[5, 1], pair_with(fault).as_slice(), &[0, 0]].concat(), number);
    }
    is_refused(tape, &[&[0, 0][..], &[1]].concat(), 10);
    named(tape, "order: bytes behind, past the end, no room");
    is_refused(tape, &[5, 1, 2, 4, 0], 63);
    tape.summary(&[5, 1, 2, 4]);
    for (group, channel) in [(0, 1), (1, 0), (MOST, MOST)] {
        tape.pair(group, channel, 0);
        refused_by(tape, 67);
    }
    [0, 1].iter().for_each(|room| {
        tape.pair(0, 0, *room);
        refused_by(tape, 50);
        tape.pairs(*room);
        refused_by(tape, 50);
    });
}

/// A pair of which one number is that, or both are.
fn pair_with(numbers: &[u8]) -> Vec<u8> {
    match numbers {
        [4, 2] => numbers.to_vec(),
        _ => [&[2], numbers].concat(),
    }
}

/// Any pairs, of numbers of one to five bytes: each of some of them, all of them, and the check against a file of which it is no summary.
fn of_any_numbers(tape: &mut Tape, random: &mut Random) {
    named(tape, "any numbers");
    tape.file(&filled(1, 3, || noisy(2, random)).bytes());
    for _ in 0..DRAWN {
        let (frames, channels) = (random.below(2_000) as u32, random.between(1, 7) as u32);
        let groups = frames.div_ceil(512);
        let pairs: Vec<(i32, i32)> = (0..groups * channels).map(|_| any_pair(random)).collect();
        tape.summary(&summary_of(frames.into(), channels.into(), &pairs));
        no(tape);
        tape.pairs((2 * pairs.len() + random.below(2)).min(MOST_SAMPLES));
        for _ in 0..3 {
            tape.pair(random.below(groups as usize + 1) as u32, random.below(channels as usize + 1) as u32, 2);
        }
    }
}

fn any_pair(random: &mut Random) -> (i32, i32) {
    let mut number = || {
        let bits = random.pick(&[1, 6, 7, 8, 13, 14, 20, 21, 27, 28, 32]);
        random.signed(bits)
    };
    let (one, other) = (number(), number());
    (one.min(other), one.max(other))
}
