//! Answers that are false on purpose, and rooms that are changed on purpose: a program that finds none of them finds nothing.
use crate::answers::{building, nowhere, reading_frames, reading_pair, Told};
use crate::blocks::{filled, flagged, raw};
use crate::encodings::spec;
use crate::faults::put;
use crate::located::Refused;
use crate::noisy::noisy;
use crate::random::Random;
use crate::tape::{Tape, SPACE};

const ACCEPTED: Told = Told::Counted(4, 7);

pub fn all(tape: &mut Tape) {
    let mut good = filled(2, 513, || noisy(3, &mut Random::new(5)));
    let file = good.bytes();
    good.groups[1][1].bits = -33;
    let damaged = good.bytes();
    tape.case("false on purpose: opening");
    of_opening(tape, &file);
    tape.case("false on purpose: decoding");
    of_decoding(tape, &file, &damaged);
    tape.case("false on purpose: stepping");
    of_stepping(tape, &file, &damaged);
    tape.case("false on purpose: encoding");
    of_encoding(tape);
    tape.case("false on purpose: re-encoding");
    of_reencoding(tape);
    tape.case("false on purpose: the place of 36");
    of_places(tape);
    tape.case("false on purpose: reading frames");
    of_frames(tape, &file, &damaged);
    let random = &mut Random::new(6);
    let various = filled(2, 513, || noisy(3, random)).bytes();
    tape.case("false on purpose: building peaks");
    of_building(tape, &various, &damaged);
    tape.case("false on purpose: reading a peak");
    of_pair(tape, &various);
    tape.case("false on purpose: reading peaks");
    of_pairs(tape, &various);
    tape.case("false on purpose: checking peaks");
    of_checking(tape, &various, &damaged);
}

/// Each of the nine fields, and the number.
fn of_opening(tape: &mut Tape, file: &[u8]) {
    tape.file(file);
    for field in 0..9 {
        tape.lie(move |told, _| wrong_field(told, field));
        tape.open();
    }
    tape.lie(|told, _| *told = nowhere(1));
    tape.open();
    let mut short = file.to_vec();
    put(&mut short, 124, 4, file.len() as u64 - 132 - 79);
    tape.file(&short);
    lies(tape, &WRONG_PLACES, |tape| tape.open() as u32);
    lies(tape, &[turned_round], |tape| tape.open() as u32);
    tape.file(&file[..119]);
    lies(tape, &WRONG_PLACES, |tape| tape.open() as u32);
    tape.lie(|told, _| *told = nowhere(2));
    tape.open();
    tape.lie(|told, _| *told = Told::Opened([1, 16, 44_100, 0, 120, 124, 0, 0, 0]));
    tape.open();
}

fn wrong_field(told: &mut Told, field: usize) {
    if let Told::Opened(numbers) = told {
        numbers[field] ^= 1;
    }
}

fn wrong_count(told: &mut Told, _: &mut u32) {
    if let Told::Counted(count, _) = told {
        *count = count.saturating_sub(4);
    }
}

fn wrong_sum(told: &mut Told, _: &mut u32) {
    if let Told::Counted(_, sum) = told {
        *sum ^= 1;
    }
}

/// What the refusal was, but for this.
fn change(told: &mut Told, change: impl FnOnce(&mut Refused)) {
    match told {
        Told::Refused(refused) => change(refused),
        _ => panic!("no refusal"),
    }
}

fn wrong_bits(told: &mut Told, _: &mut u32) {
    change(told, |refused| refused.told = 33);
}

fn another_number(told: &mut Told, _: &mut u32) {
    change(told, |refused| refused.number = 22);
}

/// Another group and another channel: by the lower of the two bytes, and by the higher.
const WRONG_PLACES: [fn(&mut Told, &mut u32); 4] = [
    |told, _| change(told, |refused| refused.group ^= 1),
    |told, _| change(told, |refused| refused.group ^= 256),
    |told, _| change(told, |refused| refused.channel ^= 1),
    |told, _| change(told, |refused| refused.channel ^= 256),
];

/// One for the other, of a refusal that concerns a group alone.
fn turned_round(told: &mut Told, _: &mut u32) {
    change(told, |refused| (refused.group, refused.channel) = (refused.channel.into(), refused.group as u16));
}

fn refused(told: &mut Told, _: &mut u32) {
    *told = nowhere(1);
}

fn accepted(told: &mut Told, _: &mut u32) {
    *told = ACCEPTED;
}

/// A question with each of these answers.
fn lies(tape: &mut Tape, lies: &[fn(&mut Told, &mut u32)], question: fn(&mut Tape) -> u32) {
    for lie in lies {
        tape.lie(*lie);
        question(tape);
    }
}

/// A question after which each of these words is changed.
fn spoils(tape: &mut Tape, words: &[usize], question: fn(&mut Tape) -> u32) {
    for word in words {
        tape.spoil(*word);
        question(tape);
    }
}

fn of_decoding(tape: &mut Tape, file: &[u8], damaged: &[u8]) {
    let question = |tape: &mut Tape| tape.decode(1028) as u32;
    tape.file(file);
    lies(tape, &[wrong_count, wrong_sum, refused], question);
    spoils(tape, &[0, 1025, 1026, 1027], question);
    tape.file(damaged);
    lies(tape, &[wrong_bits, another_number, accepted], question);
    lies(tape, &WRONG_PLACES, question);
    spoils(tape, &[0, 1027], question);
}

fn of_stepping(tape: &mut Tape, file: &[u8], damaged: &[u8]) {
    let question = |tape: &mut Tape| tape.step(1, 4);
    let past = |tape: &mut Tape| tape.step(2, 4);
    tape.file(file);
    lies(tape, &[wrong_count, wrong_sum, refused, |told, _| *told = Told::Done, |_, next| *next = 1], question);
    spoils(tape, &[1, 2, 3], question);
    lies(tape, &[accepted, refused, |_, next| *next = 3], past);
    spoils(tape, &[0, 3], past);
    tape.file(damaged);
    lies(tape, &[wrong_bits, another_number, accepted, |_, next| *next = 2], question);
    lies(tape, &WRONG_PLACES, question);
    spoils(tape, &[0, 3], question);
}

/// Frames 511 and 512: four samples, in room for six. Other frames in their place, then a damaged group, and a range past the end.
fn of_frames(tape: &mut Tape, file: &[u8], damaged: &[u8]) {
    let question = |tape: &mut Tape| tape.frames(511, 2, 6) as u32;
    tape.file(file);
    lies(
        tape,
        &[wrong_count, wrong_sum, refused, |told, _| *told = nowhere(50), |told, _| *told = nowhere(51)],
        question,
    );
    for (first, count) in [(510, 2), (0, 2), (511, 1), (510, 3)] {
        let others = reading_frames(file, first, count, 6);
        tape.lie(move |told, _| *told = others);
        question(tape);
    }
    spoils(tape, &[0, 3, 4, 5], question);
    tape.file(damaged);
    lies(tape, &[wrong_bits, another_number, accepted], question);
    lies(tape, &WRONG_PLACES, question);
    spoils(tape, &[0, 5], question);
    let past = |tape: &mut Tape| tape.frames(512, 2, 0) as u32;
    lies(tape, &[accepted, another_number, |told, _| *told = nowhere(50)], past);
    lies(tape, &WRONG_PLACES, past);
    let short = |tape: &mut Tape| tape.frames(511, 1, 1) as u32;
    lies(tape, &[accepted, |told, _| *told = nowhere(51)], short);
}

/// Two groups of two channels. A length that is one byte off; the room is changed in the summary's last word, which is not whole, and behind it.
fn of_building(tape: &mut Tape, file: &[u8], damaged: &[u8]) {
    let question = |tape: &mut Tape| tape.build(64) as u32;
    let length = building(file, SPACE).1.len();
    assert!(length % 4 > 0 && length < 56, "a last word that is not whole");
    tape.file(file);
    lies(
        tape,
        &[wrong_count, odd_count, wrong_sum, refused, |told, _| *told = nowhere(50), |told, _| *told = nowhere(66)],
        question,
    );
    spoils(tape, &[0, length / 4, length / 4 + 1, 15], question);
    tape.file(damaged);
    lies(tape, &[wrong_bits, another_number, accepted], question);
    lies(tape, &WRONG_PLACES, question);
    spoils(tape, &[0, 15], question);
    tape.file(&float_file());
    lies(tape, &[accepted, another_number, |told, _| *told = nowhere(50)], question);
    lies(tape, &WRONG_PLACES, question);
    tape.file(file);
    let short = |tape: &mut Tape| tape.build(3) as u32;
    lies(tape, &[accepted, another_number], short);
    lies(tape, &WRONG_PLACES, short);
}

fn float_file() -> Vec<u8> {
    filled(2, 513, || flagged(2, noisy(3, &mut Random::new(5)))).bytes()
}

fn odd_count(told: &mut Told, _: &mut u32) {
    if let Told::Counted(count, _) = told {
        *count ^= 1;
    }
}

fn give_summary(tape: &mut Tape, file: &[u8]) {
    tape.file(file);
    tape.build(64);
    tape.keep_read();
}

/// Group 1, channel 0, in room for four samples. The other pairs in its place, then a channel past the last, and too little room.
fn of_pair(tape: &mut Tape, file: &[u8]) {
    let question = |tape: &mut Tape| tape.pair(1, 0, 4) as u32;
    give_summary(tape, file);
    lies(
        tape,
        &[wrong_count, wrong_sum, refused, |told, _| *told = nowhere(50), |told, _| *told = nowhere(67)],
        question,
    );
    for (group, channel) in [(0, 0), (0, 1), (1, 1)] {
        let other = reading_pair(tape.sample_bytes(), group, channel, 4);
        tape.lie(move |told, _| *told = other);
        question(tape);
    }
    spoils(tape, &[0, 1, 2, 3], question);
    let past = |tape: &mut Tape| tape.pair(0, 2, 4) as u32;
    lies(tape, &[accepted, another_number, |told, _| *told = nowhere(63)], past);
    lies(tape, &WRONG_PLACES, past);
    spoils(tape, &[0, 3], past);
    let short = |tape: &mut Tape| tape.pair(0, 0, 1) as u32;
    lies(tape, &[accepted, |told, _| *told = nowhere(67)], short);
}

/// Four pairs in room for ten samples; then a summary cut.
fn of_pairs(tape: &mut Tape, file: &[u8]) {
    let question = |tape: &mut Tape| tape.pairs(10) as u32;
    give_summary(tape, file);
    lies(tape, &[wrong_count, wrong_sum, refused, |told, _| *told = nowhere(50)], question);
    spoils(tape, &[0, 7, 8, 9], question);
    tape.samples_length(tape.sample_bytes().len() - 1);
    lies(tape, &[accepted, another_number, |told, _| *told = nowhere(63)], question);
    lies(tape, &WRONG_PLACES, question);
    spoils(tape, &[0, 9], question);
}

/// Yes for no and no for yes; neither for a refusal.
fn of_checking(tape: &mut Tape, file: &[u8], damaged: &[u8]) {
    let question = |tape: &mut Tape| tape.check() as u32;
    let [yes, no]: [fn(&mut Told, &mut u32); 2] =
        [|told, _| *told = Told::Counted(1, 0), |told, _| *told = Told::Counted(0, 0)];
    give_summary(tape, file);
    lies(tape, &[no, refused, |told, _| *told = nowhere(66), |told, _| *told = Told::Counted(2, 0)], question);
    tape.samples_length(tape.sample_bytes().len() - 1);
    lies(tape, &[yes, refused, |told, _| *told = nowhere(60)], question);
    tape.file(damaged);
    lies(tape, &[yes, no, wrong_bits, another_number], question);
    lies(tape, &WRONG_PLACES, question);
    tape.file(&float_file());
    lies(tape, &[yes, no, another_number], question);
    lies(tape, &WRONG_PLACES, question);
}

/// One sample gives 272 bytes.
fn of_encoding(tape: &mut Tape) {
    let question = |tape: &mut Tape| tape.encode(0, 280) as u32;
    tape.settings(spec(1, 16));
    tape.samples([5]);
    lies(tape, &[wrong_count, wrong_sum, refused], question);
    spoils(tape, &[67, 68, 69], question);
    tape.samples([40_000]);
    lies(tape, &[another_number, accepted], question);
    lies(tape, &WRONG_PLACES, question);
    spoils(tape, &[0, 69], question);
    tape.settings(spec(2, 16));
    tape.samples((0..1026).map(|k| i32::from(k == 1024)).collect::<Vec<_>>());
    let question = |tape: &mut Tape| tape.encode(2, 280) as u32;
    lies(tape, &WRONG_PLACES, question);
    lies(tape, &[turned_round], question);
}

/// At the end 39: only the word that the boundary tells of a refusal has its place.
fn of_reencoding(tape: &mut Tape) {
    let question = |tape: &mut Tape| tape.reencode(280) as u32;
    tape.settings(spec(1, 16));
    tape.samples([5]);
    tape.encode(0, 272);
    tape.keep_written();
    lies(tape, &[wrong_count, wrong_sum, refused], question);
    spoils(tape, &[67, 68, 69], question);
    let mut damaged = tape.file_bytes().to_vec();
    damaged[136] = 200;
    tape.file(&damaged);
    lies(tape, &[wrong_bits, another_number, accepted], question);
    lies(tape, &WRONG_PLACES, question);
    spoils(tape, &[0, 69], question);
    tape.settings(spec(2, 16));
    tape.samples((0..1026).map(|k| if k == 1025 { 8 } else { 0 }).collect::<Vec<_>>());
    tape.file(&filled(2, 513, || raw(4, &[])).bytes());
    lies(tape, &WRONG_PLACES, question);
    tape.samples_length(4_103);
    lies(tape, &WRONG_PLACES, question);
}

/// One place too high, one too low, none where there is one to tell; beyond the last, and the last for the first.
fn of_places(tape: &mut Tape) {
    tape.settings(spec(1, 16));
    tape.file(&filled(1, 512, || raw(4, &[])).bytes());
    for (place, said) in [(0, [1, 511, -1]), (2, [3, 1, 0]), (511, [512, 510, 0])] {
        let samples: Vec<i32> = (0..512).map(|k| if k == place { 8 } else { 0 }).collect();
        tape.samples(samples);
        said.iter().for_each(|said| tell(tape, *said));
    }
}

fn tell(tape: &mut Tape, place: i16) {
    tape.lie(move |told, _| change(told, |refused| refused.told = place as u16));
    tape.reencode(400);
}
