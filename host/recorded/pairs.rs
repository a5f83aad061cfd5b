//! The order of checks: every two that fail at once, and too little room besides. Which of them is told is the original's answer.
use crate::blocks::{differences, file, filled, flagged};
use crate::encodings::spec;
use crate::files::{Block, File};
use crate::noisy::{begun_run, noisy};
use crate::orders::{Call, OF_ENCODING, OF_FIRST_BLOCK, OF_LATER_BLOCK, OF_OPENING, OF_REENCODING};
use crate::random::Random;
use crate::tape::Tape;
use ncw::PcmSpec;

const SEED: u64 = 20_261_118;

type Spoil = fn(&mut Call);

pub fn all(tape: &mut Tape) {
    let random = &mut Random::new(SEED);
    let mut to_read = |channels, frames| File { tail: vec![0; 20], ..filled(channels, frames, || noisy(4, random)) };
    of_reading(tape, "opening", OF_OPENING, &to_read(2, 513), 0, 0);
    of_reading(tape, "opening without frames", OF_OPENING, &to_read(2, 0), 0, 0);
    of_reading(tape, "a first block", OF_FIRST_BLOCK, &to_read(1, 1100), 2, 0);
    of_reading(tape, "a later block", OF_LATER_BLOCK, &to_read(3, 700), 1, 2);
    for (channels, flags) in [(1, 0), (2, 0), (2, 1)] {
        let template = template(channels, flags, random);
        of_encoding(tape, channels, &template);
        of_reencoding(tape, channels, &template);
    }
}

/// Each two of them, the later check first, which is how they are put in.
fn pairs(spoils: &[Spoil]) -> Vec<(usize, usize, [Spoil; 2])> {
    let seconds = (0..spoils.len()).flat_map(|second| (0..second).map(move |first| (first, second)));
    seconds.map(|(first, second)| (first, second, [spoils[first], spoils[second]])).collect()
}

/// Of a group's checks also by its last frame, without room.
fn of_reading(tape: &mut Tape, name: &str, spoils: &[Spoil], good: &File, group: usize, channel: usize) {
    for (first, second, both) in pairs(spoils) {
        tape.case(format!("order: {name}, {first} and {second}"));
        tape.file(&Call::new(spec(1, 16), Vec::new(), good, group, channel).spoiled(&both, 2).file);
        tape.open();
        tape.decode(3);
        tape.step(group as u32, 1);
        if group > 0 {
            tape.frames(good.frames.min(512 * group as u32 + 512) - 1, 1, 0);
        }
    }
}

fn template(channels: u16, flags: u16, random: &mut Random) -> File {
    let mut block = |_| {
        let run = begun_run(&[1, 1, 1], 12, random);
        flagged(flags, Block { run, ..differences(4, 12, &[]) })
    };
    let group = (0..channels).map(&mut block).collect();
    File { tail: vec![0; 20], ..file(channels, 16, 4, vec![group]) }
}

fn call(channels: u16, template: &File) -> Call {
    let samples = (0..4 * i32::from(channels)).map(|k| 2 * k).collect();
    Call::new(spec(channels, 16), samples, template, 0, 0)
}

fn give(tape: &mut Tape, name: String, spec: PcmSpec, samples: Vec<i32>) {
    tape.case(name);
    tape.settings(spec);
    tape.samples(samples);
}

fn of_encoding(tape: &mut Tape, channels: u16, template: &File) {
    for (first, second, both) in pairs(OF_ENCODING) {
        let call = call(channels, template).spoiled(&both, 2);
        give(tape, format!("order: encoding, channels {channels}, {first} and {second}"), call.spec, call.samples);
        tape.encode(2, 4);
    }
}

fn of_reencoding(tape: &mut Tape, channels: u16, template: &File) {
    let flags = template.groups[0][0].flags;
    for (first, second, both) in pairs(OF_REENCODING) {
        let call = call(channels, template).spoiled(&both, 2);
        let name = format!("order: re-encoding, channels {channels}, flags {flags}, {first} and {second}");
        give(tape, name, call.spec, call.samples);
        tape.file(&call.file);
        tape.reencode(4);
    }
}
