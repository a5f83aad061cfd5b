//! Random files: small ones with no to three faults, and those that `host/definitions` draws, which take longer to make.
use super::widths::{any_values, DEPTHS};
use super::Part;
use crate::asking::{ask, Answer, Question};
use crate::blocks::flagged;
use crate::faults::{IN_FILES_TO_DECODE, IN_FILES_TO_OPEN};
use crate::files::{Block, File};
use crate::inputs::Maker;
use crate::random::Random;

/// One file of so many is one of `host/definitions`.
const ONE_OF_DEFINITIONS: usize = 12;

pub fn random(count: usize, seed: u64) -> Part {
    Part::new(count, move |k| {
        let random = &mut Random::new(seed.wrapping_add(k as u64));
        match random.once_in(ONE_OF_DEFINITIONS) {
            true => of_definitions(random.next()),
            false => faulty(random),
        }
    })
}

// ---- small files

fn faulty(random: &mut Random) -> Vec<u8> {
    let file = small(random);
    let (mut bytes, places) = (file.bytes(), file.places());
    for _ in 0..random.pick(&[0, 0, 1, 1, 2, 3]) {
        let faults = random.pick(&[IN_FILES_TO_OPEN, IN_FILES_TO_DECODE, IN_FILES_TO_DECODE]);
        random.pick(faults).apply(&mut bytes, &places, random);
    }
    bytes
}

fn small(random: &mut Random) -> File {
    let channels = random.pick(&[1, 1, 1, 2, 2, 2, 2, 3, 4]);
    let frames = match random.below(16) {
        0 => random.pick(&[0, 511, 512, 513, 1024, 1025]),
        _ => random.between(1, 20) as u32,
    };
    let (depth, float) = (random.pick(&DEPTHS), 2 * random.below(2) as u16);
    let mut file = File::new(channels, depth, 44_100, frames, random);
    file.groups = (0..frames.div_ceil(512)).map(|_| group(channels, depth, float, random)).collect();
    file
}

/// Bit 0 of the flags is anything after the first block, and the bits above bit 1 are anything.
fn group(channels: u16, depth: u16, float: u16, random: &mut Random) -> Vec<Block> {
    let mut flags: Vec<u16> = (0..channels).map(|_| random.next() as u16 & !2 | float).collect();
    flags[0] &= if channels == 2 { !0 } else { !1 };
    flags.into_iter().map(|flags| flagged(flags, any_values(narrow(random), depth, random))).collect()
}

/// A bits word, mostly of a narrow block.
fn narrow(random: &mut Random) -> i16 {
    let most = random.pick(&[2, 2, 2, 4, 8, 32]);
    random.between(-most, most) as i16
}

// ---- those of host/definitions

fn of_definitions(seed: u64) -> Vec<u8> {
    let mut maker = Maker::new(seed);
    std::iter::repeat_with(|| maker.question()).find_map(file).expect("a file comes at some time")
}

/// What is to be opened or decoded, a template, and what the original encodes.
fn file(question: Question) -> Option<Vec<u8>> {
    match question {
        Question::Open(file) | Question::Decode(file) | Question::Reencode(_, _, file) => Some(file),
        encoding => match ask(&encoding) {
            Answer::Bytes(file) => Some(file),
            _ => None,
        },
    }
}
