//! Files that are walked over group by group: from none to four groups of every kind, damaged ones, bytes that do not open, and too little room.
use crate::asking::{ask, Answer, Question};
use crate::blocks::{file, filled, flagged};
use crate::cases::{float_pairs, nan_pairs, set, with_flags, FAULTS};
use crate::files::File;
use crate::noisy::{noisy, noisy_at_depth, noisy_raw};
use crate::random::Random;

pub struct Walk {
    pub name: String,
    pub file: Vec<u8>,
    /// How many samples each step has room for.
    pub room: usize,
}

type List = fn(&mut Random) -> Vec<Walk>;

const SEED: u64 = 20_261_116;

pub fn all() -> Vec<Walk> {
    let random = &mut Random::new(SEED);
    let lists: [List; 5] = [of_lengths, of_kinds, of_damage, of_openings, of_room];
    lists.iter().flat_map(|list| list(random)).collect()
}

/// Each step has room for three samples more than a whole group has.
fn walk(name: impl Into<String>, file: Vec<u8>) -> Walk {
    let room = 512 * channels_of(&file) + 3;
    Walk { name: name.into(), file, room }
}

/// With the room of the good file.
fn damaged(name: impl Into<String>, good: Vec<u8>, file: Vec<u8>) -> Walk {
    Walk { file, ..walk(name, good) }
}

fn in_room(room: usize, walk: Walk) -> Walk {
    Walk { name: format!("{}, room {room}", walk.name), room, ..walk }
}

// ---- what is read

fn of_lengths(random: &mut Random) -> Vec<Walk> {
    let mut cases = Vec::new();
    for (frames, channels) in [(0, 2), (1, 1), (512, 1), (513, 2), (1024, 1), (1025, 2), (1025, 3), (2048, 2)] {
        let read = filled(channels, frames, || noisy(random.between(1, 9) as u32, random));
        cases.push(walk(format!("channels {channels}, frames {frames}"), read.bytes()));
    }
    cases
}

/// Groups of different kinds in one file.
fn of_kinds(random: &mut Random) -> Vec<Walk> {
    let mut raw = false;
    let mut next = |width: u32| {
        raw = !raw;
        if raw {
            noisy_raw(width, random)
        } else {
            noisy(width, random)
        }
    };
    let widths = [[32, 1], [5, 24], [17, 2], [8, 31]].map(|pair| pair.map(&mut next).into()).into();
    let at_depth = noisy_at_depth(24, random);
    let depth = file(1, 24, 1500, vec![vec![noisy(3, random)], vec![at_depth], vec![noisy_raw(11, random)]]);
    let float = [noisy(9, random), noisy_raw(32, random)].map(|block| vec![flagged(2, block)]).into();
    let [mut pairs, mut nans] = [float_pairs(), nan_pairs()];
    pairs.groups[1][0].flags = 2;
    nans.groups[1][0].flags = 2;
    let [gap, tail] = [5, 9].map(|n| random.bytes(n));
    let around = File { mark: 0x30, gap, tail, ..filled(1, 514, || noisy(2, random)) };
    vec![
        walk("differences and raw, eight widths", file(2, 24, 1600, widths).bytes()),
        walk("bits 0 in the second group", depth.bytes()),
        walk("direct and mid/side", with_flags(2, &[0, 0, 1, 1, 0, 1, 1, 0], random)),
        walk("float", file(1, 32, 600, float).bytes()),
        walk("float, mid/side and direct", pairs.bytes()),
        walk("float, mid/side and direct, NaNs", nans.bytes()),
        walk("bytes around table and data", around.bytes()),
    ]
}

// ---- what is refused

/// Each refusal of decoding in one of three groups, the last, the first, the second and so on; signatures in each; and two groups damaged.
fn of_damage(random: &mut Random) -> Vec<Walk> {
    let mut cases = Vec::new();
    for (k, (name, channels, fault)) in FAULTS.iter().enumerate() {
        let (mut file, group) = (filled(*channels, 1030, || noisy(2, random)), (k + 2) % 3);
        let good = file.bytes();
        fault(&mut file.groups[group]);
        cases.push(damaged(format!("{name}, group {group}"), good, file.bytes()));
    }
    let good = filled(2, 1030, || noisy(2, random));
    let blocks = good.places().blocks;
    let unsigned = |group: usize| set(&good, &[(blocks[group][1], 1, 0)]);
    let signature =
        |group: usize| damaged(format!("signature of the second block, group {group}"), good.bytes(), unsigned(group));
    cases.extend((0..3).map(signature));
    let both = set(&good, &[(blocks[1][1] + 8, 2, 0x8000), (blocks[2][0] + 10, 2, 2)]);
    cases.push(damaged("bits word, group 1, and float bit, group 2", good.bytes(), both));
    cases
}

fn of_openings(random: &mut Random) -> Vec<Walk> {
    let good = filled(1, 1030, || noisy(2, random));
    let (table, start) = (good.places().table, good.places().start);
    let unopened = |name: &str, file: Vec<u8>| damaged(name, good.bytes(), file);
    vec![
        unopened("the first 119 bytes", good.bytes()[..119].to_vec()),
        unopened("signature", set(&good, &[(4, 1, 0x32)])),
        unopened("no channels", set(&good, &[(8, 2, 0)])),
        unopened("a second group of 79 bytes", set(&good, &[(table + 8, 4, 144 + 79)])),
        unopened("signature of the first block", set(&good, &[(start, 1, 0)])),
    ]
}

/// Exactly enough, one sample too little, enough for the last group alone; what is wrong with a group comes before too little room for it.
fn of_room(random: &mut Random) -> Vec<Walk> {
    let mut two = filled(1, 513, || noisy(2, random));
    let good = two.bytes();
    let of_good = |room| in_room(room, walk("channels 1, frames 513", good.clone()));
    let mut cases: Vec<Walk> = [512, 511, 1].map(of_good).into();
    for group in [1, 0] {
        two.groups[group][0].bits = 33;
        let name = format!("channels 1, frames 513, bits 33 from group {group} on");
        cases.push(in_room(511, damaged(name, good.clone(), two.bytes())));
    }
    let three = filled(3, 5, || noisy(2, random)).bytes();
    cases.extend([15, 14].map(|room| in_room(room, walk("channels 3, frames 5", three.clone()))));
    cases
}

fn channels_of(file: &[u8]) -> usize {
    match ask(&Question::Open(file.to_vec())) {
        Answer::Opened(numbers) => numbers[0] as usize,
        _ => panic!("a good file does not open"),
    }
}
