//! Where a call is refused: what the list has to have of groups and channels, and cases for what no other case has.
use crate::blocks::filled;
use crate::encodings::spec;
use crate::faults::put;
use crate::noisy::noisy;
use crate::random::Random;
use crate::tally::Asked;
use crate::tape::{Met, Tape};

pub fn all(tape: &mut Tape) {
    of_short_groups(tape);
    of_odd_groups(tape);
}

/// Of four groups the second and the third have 79 bytes. A step names the group that is wrong, wherever the walk stands.
fn of_short_groups(tape: &mut Tape) {
    let random = &mut Random::new(7);
    let mut bytes = filled(1, 1600, || noisy(2, random)).bytes();
    [(128, 223), (132, 302)].iter().for_each(|(at, entry)| put(&mut bytes, *at, 4, *entry));
    tape.case("place: two short groups");
    tape.file(&bytes);
    tape.open();
    tape.decode(1600);
    tape.step(0, 512);
    tape.step(2, 512);
    tape.frames(1024, 1, 1);
    tape.build(0);
    tape.check();
}

/// Of three groups the second and the third have a frame of different parity.
fn of_odd_groups(tape: &mut Tape) {
    tape.case("place: two odd groups");
    tape.settings(spec(2, 16));
    tape.samples((0..2050).map(|k| i32::from(k == 1300 || k == 2049)).collect::<Vec<_>>());
    tape.encode(2, 2_000);
}

// ---- what the list has to have

/// The numbers that concern a block: each in a later group and a later channel.
const OF_BLOCKS: [(Asked, &[u8]); 6] = [
    (Asked::Decoding, &[1, 3, 4, 20]),
    (Asked::Stepping, &[1, 3, 4, 20]),
    (Asked::Reencoding, &[1, 3, 4, 36, 44, 45]),
    (Asked::Frames, &[1, 3, 4, 20]),
    (Asked::Building, &[1, 3, 4, 20]),
    (Asked::Checking, &[1, 3, 4, 20]),
];

/// Those that concern a group: each in a later one.
const OF_GROUPS: [(Asked, &[u8]); 8] = [
    (Asked::Opening, &[19]),
    (Asked::Decoding, &[19, 21, 22]),
    (Asked::Stepping, &[19, 21, 22]),
    (Asked::Encoding, &[35]),
    (Asked::Reencoding, &[34, 35, 43, 46]),
    (Asked::Frames, &[19, 21, 22]),
    (Asked::Building, &[19, 21, 22]),
    (Asked::Checking, &[19, 21, 22]),
];

/// Those of them that come after the last channel: each with several.
const AFTER_CHANNELS: [(Asked, &[u8]); 6] = [
    (Asked::Decoding, &[22]),
    (Asked::Stepping, &[22]),
    (Asked::Reencoding, &[46]),
    (Asked::Frames, &[22]),
    (Asked::Building, &[22]),
    (Asked::Checking, &[22]),
];

/// Two groups are bad, and the first of them, which is not the file's first, is named.
const OF_TWO: [(&str, &str); 7] = [
    ("place: two short groups", "open 19 at 1, 0"),
    ("place: two short groups", "decode 19 at 1, 0"),
    ("place: two short groups", "step 19 at 1, 0"),
    ("place: two short groups", "frames 19 at 1, 0"),
    ("place: two short groups", "build 19 at 1, 0"),
    ("place: two short groups", "check 19 at 1, 0"),
    ("place: two odd groups", "encode 35 at 1, 0"),
];

/// What of that the list lacks.
pub fn missing(tape: &Tape) -> Vec<String> {
    let later_group = |met: &Met| met.group > 0;
    let later_block = |met: &Met| met.group > 0 && met.channel > 0;
    let of_several = |met: &Met| met.group > 0 && met.channels > 1;
    let two = OF_TWO.iter().filter(|(name, answer)| !has(tape, name, answer));
    [
        lacking(tape, &OF_BLOCKS, later_block),
        lacking(tape, &OF_GROUPS, later_group),
        lacking(tape, &AFTER_CHANNELS, of_several),
        two.map(|(name, answer)| format!("{name}: {answer}")).collect(),
    ]
    .concat()
}

fn lacking(tape: &Tape, numbers: &[(Asked, &[u8])], fits: impl Fn(&Met) -> bool) -> Vec<String> {
    let all = numbers.iter().flat_map(|(asked, numbers)| numbers.iter().map(move |number| (*asked, *number)));
    let is = |met: &&Met, of: (Asked, u8)| (met.asked, met.number) == of && fits(met);
    all.filter(|of| !tape.met.iter().any(|met| is(&met, *of))).map(|of| format!("{of:?}")).collect()
}

fn has(tape: &Tape, name: &str, answer: &str) -> bool {
    tape.cases.iter().any(|case| case.name == name && case.answers.iter().any(|said| said == answer))
}
