//! Frames by first and count: every border of a group, ranges past the end, damage in groups that are touched and in others, too little room.
use crate::answers::{opening, Told};
use crate::blocks::{file, filled, flagged};
use crate::cases::{set, FAULTS};
use crate::files::{Block, File};
use crate::noisy::{noisy, noisy_raw};
use crate::random::Random;
use crate::tape::{Tape, MOST_SAMPLES};

const SEED: u64 = 20_261_120;

/// Two whole groups and six frames.
const FRAMES: u32 = 1030;
const MOST: u32 = u32::MAX;

pub fn all(tape: &mut Tape) {
    let random = &mut Random::new(SEED);
    of_borders(tape, random);
    of_ends(tape, random);
    of_none(tape);
    of_damage(tape, random);
    of_two_groups(tape, random);
    of_first_blocks(tape, random);
    of_floats(tape, random);
    of_room(tape, random);
    of_page(tape, random);
}

/// From a third of the file on to its end; of a file that does not open what would be past every end, without room.
pub fn of_any(tape: &mut Tape) {
    match opening(tape.file_bytes()) {
        Told::Opened(numbers) => {
            let frames = numbers[3] as u32;
            ask(tape, numbers[0] as u16, &[(frames / 3, frames - frames / 3)]);
        }
        _ => _ = tape.frames(1, MOST, 0),
    }
}

/// With room for three samples more than the frames have.
fn ask(tape: &mut Tape, channels: u16, ranges: &[(u32, u32)]) {
    for (first, count) in ranges {
        let room = u64::from(*count) * u64::from(channels) + 3;
        tape.frames(*first, *count, room.min(MOST_SAMPLES as u64) as usize);
    }
}

fn named(tape: &mut Tape, name: impl AsRef<str>, file: &[u8]) {
    tape.case(format!("frames: {}", name.as_ref()));
    tape.file(file);
}

// ---- what is read

/// Between any two places at a border; the second of three groups is mid/side where there are two channels.
fn of_borders(tape: &mut Tape, random: &mut Random) {
    for channels in [1, 2, 3] {
        let mut block = |group: u16, channel: u16| {
            let width = random.between(1, 9) as u32;
            let block = if (group + channel) % 2 == 0 { noisy(width, random) } else { noisy_raw(width, random) };
            flagged(u16::from(channels == 2 && group == 1), block)
        };
        let groups = [0, 1, 2].map(|group| (0..channels).map(|channel| block(group, channel)).collect()).into();
        named(tape, format!("borders, channels {channels}"), &file(channels, 16, 1300, groups).bytes());
        let places: &[u32] = match channels {
            3 => &[0, 511, 512, 1025, 1300],
            _ => &[0, 1, 511, 512, 513, 1023, 1024, 1025, 1299, 1300],
        };
        for (k, end) in places.iter().enumerate() {
            let ranges: Vec<(u32, u32)> = places[..=k].iter().map(|first| (*first, end - first)).collect();
            ask(tape, channels, &ranges);
        }
    }
}

/// Float goes frame by frame; among the words are NaNs.
fn of_floats(tape: &mut Tape, random: &mut Random) {
    let mut group = |flags: u16| vec![flagged(flags, noisy_raw(32, random)), flagged(2, noisy_raw(32, random))];
    let groups = [3, 2, 3].map(&mut group).into();
    named(tape, "float, mid/side and direct", &file(2, 32, FRAMES, groups).bytes());
    ask(tape, 2, &[(0, FRAMES), (1, 1), (300, 212), (511, 1), (511, 2), (512, 512), (600, 1), (1023, 3), (1029, 1)]);
}

/// Exactly enough, one sample more, one less, none: for the frames asked for, not for the file.
fn of_room(tape: &mut Tape, random: &mut Random) {
    named(tape, "room, channels 3", &filled(3, FRAMES, || noisy(2, random)).bytes());
    for (first, count) in [(0, 1), (511, 2), (1029, 1), (100, 1300 / 3)] {
        let exact = 3 * count as usize;
        [exact, exact + 1, exact - 1, 0].iter().for_each(|room| _ = tape.frames(first, count, *room));
    }
    for first in [0, 700, FRAMES] {
        [0, 2].iter().for_each(|room| _ = tape.frames(first, 0, *room));
    }
    tape.frames(0, FRAMES, 3 * FRAMES as usize - 1);
}

/// Document 02's page: frames 90,000 to 90,400; then with every group damaged that they do not touch.
fn of_page(tape: &mut Tape, random: &mut Random) {
    let mut long = filled(1, 92_000, || noisy(1, random));
    named(tape, "the waveform page", &long.bytes());
    ask(tape, 1, &[(90_000, 400), (89_600, 912), (0, 1), (91_999, 1), (92_000, 0), (91_999, 2), (0, 92_000)]);
    let touched = |group: &usize| (90_000 / 512..=90_399 / 512).contains(group);
    (0..long.groups.len()).filter(|group| !touched(group)).for_each(|group| long.groups[group][0].bits = 33);
    named(tape, "the waveform page, all other groups damaged", &long.bytes());
    ask(tape, 1, &[(90_000, 400), (89_600, 912), (89_600, 1024), (89_599, 2), (90_623, 2), (0, 0), (91_999, 1)]);
}

// ---- what is refused

/// The file ends at 1,030. Sums of first and count that 32 bits do not hold; then all that with every group damaged, and without room.
fn of_ends(tape: &mut Tape, random: &mut Random) {
    let ranges = [
        (FRAMES, 0),
        (FRAMES + 1, 0),
        (FRAMES, 1),
        (FRAMES - 1, 1),
        (FRAMES - 1, 2),
        (0, FRAMES + 1),
        (0, MOST),
        (1, MOST),
        (5, MOST),
        (2, MOST - 1),
        (MOST, 0),
        (MOST, 1),
        (MOST, MOST),
        (1 << 31, 1 << 31),
    ];
    for channels in [1, 2] {
        let mut long = filled(channels, FRAMES, || noisy(2, random));
        named(tape, format!("past the end, channels {channels}"), &long.bytes());
        ask(tape, channels, &ranges);
        long.groups.iter_mut().for_each(|group| group[0].bits = 33);
        named(tape, format!("past the end, channels {channels}, every group damaged"), &long.bytes());
        ranges.iter().for_each(|(first, count)| _ = tape.frames(*first, *count, 0));
    }
}

fn of_none(tape: &mut Tape) {
    named(tape, "a file of no frames", &file(2, 16, 0, Vec::new()).bytes());
    ask(tape, 2, &[(0, 0), (0, 1), (1, 0), (1, MOST), (MOST, 1)]);
}

/// Each refusal of decoding in each of three groups: ranges that touch it, wholly and by one frame, and those that end or begin beside it.
fn of_damage(tape: &mut Tape, random: &mut Random) {
    for (group, (name, channels, fault)) in (0..3).flat_map(|group| FAULTS.iter().map(move |fault| (group, fault))) {
        let mut long = filled(*channels, FRAMES, || noisy(2, random));
        fault(&mut long.groups[group as usize]);
        named(tape, format!("{name}, group {group}"), &long.bytes());
        let (begin, end) = (512 * group, FRAMES.min(512 * group + 512));
        ask(tape, *channels, &[(begin, end - begin), (begin + 3, 1), (end - 1, 1), (begin, 0), (begin + 3, 0)]);
        if group > 0 {
            ask(tape, *channels, &[(begin - 2, 2), (0, begin)]);
            tape.frames(begin - 1, 2, 0);
        }
        if group < 2 {
            ask(tape, *channels, &[(end, 2), (end, FRAMES - end)]);
            tape.frames(end - 1, 2, 0);
        }
    }
}

/// Of two damaged groups the first that is touched is told.
fn of_two_groups(tape: &mut Tape, random: &mut Random) {
    let mut long = filled(2, FRAMES, || noisy(2, random));
    long.groups[1][1].bits = -33;
    long.groups[2][0].flags = 2;
    named(tape, "bits word, group 1, and float bit, group 2", &long.bytes());
    ask(
        tape,
        2,
        &[(0, FRAMES), (0, 512), (0, 513), (1023, 1), (1023, 2), (1024, 1), (1024, 6), (1000, 0), (FRAMES, 0)],
    );
}

/// Of the first block the signature and the float bit count for every range, and nothing else; of other groups nothing that is not touched.
fn of_first_blocks(tape: &mut Tape, random: &mut Random) {
    let changes: [(&str, fn(&mut [Vec<Block>])); 6] = [
        ("float bit of the first block alone", |groups| groups[0][0].flags = 2),
        ("float bit of all but the first block", |groups| {
            groups.iter_mut().flatten().for_each(|block| block.flags = 2);
            groups[0][0].flags = 0;
        }),
        ("float bit of every block", |groups| groups.iter_mut().flatten().for_each(|block| block.flags = 2)),
        ("mid/side bit of the first block alone", |groups| groups[0][0].flags = 1),
        ("bits word of the first block", |groups| groups[0][0].bits = 33),
        ("base and padding of the first block", |groups| (groups[0][0].base, groups[0][0].padding) = (-7, 7)),
    ];
    for (channels, (name, change)) in [1, 2, 3].into_iter().flat_map(|channels| changes.map(|it| (channels, it))) {
        let mut long = filled(channels, FRAMES, || noisy(2, random));
        change(&mut long.groups);
        named(tape, format!("{name}, channels {channels}"), &long.bytes());
        ask(tape, channels, &[(511, 1), (511, 2), (512, 1), (1020, 10), (0, 0)]);
    }
    of_signatures(tape, &filled(2, FRAMES, || noisy(2, random)));
}

fn of_signatures(tape: &mut Tape, good: &File) {
    for (group, channel) in [(0, 0), (0, 1), (1, 0), (1, 1)] {
        let unsigned = set(good, &[(good.places().blocks[group][channel], 1, 0)]);
        named(tape, format!("signature of group {group}, channel {channel}"), &unsigned);
        ask(tape, 2, &[(0, 0), (510, 2), (511, 2), (1023, 1), (1024, 6), (FRAMES, 0), (FRAMES, 1), (1, MOST)]);
    }
}
