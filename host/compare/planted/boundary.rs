//! The calls of the host boundary, with a fault planted after all but opening: `PLANTED` says which.
use std::sync::OnceLock;

pub use ours::boundary::open;

const REFUSED: u64 = 1 << 63;

fn planted() -> &'static str {
    static NAME: OnceLock<String> = OnceLock::new();
    NAME.get_or_init(|| std::env::var("PLANTED").unwrap_or_default())
}

pub fn decode(file: &[u8], samples: &mut [u8]) -> u64 {
    read_past(file);
    spoiled(ours::boundary::decode(file, samples), samples)
}

pub fn read_frames(file: &[u8], first: u32, count: u32, samples: &mut [u8]) -> u64 {
    read_past(file);
    let answer = ours::boundary::read_frames(file, first, count, samples);
    spoil_input("a byte of the file changed", file);
    match planted() {
        "a byte behind the data decides" if file.last().is_some_and(|byte| byte & 1 == 1) => spoil(samples.first_mut()),
        "a byte of the unknown header decides" if file.get(40).is_some_and(|byte| byte & 1 == 1) => return REFUSED + 3,
        _ => (),
    }
    spoiled(answer, samples)
}

pub fn peaks(file: &[u8], summary: &mut [u8]) -> u64 {
    read_past(file);
    let answer = ours::boundary::peaks(file, summary);
    spoil_input("a byte of the file changed", file);
    match planted() {
        "66 after 50" if answer == REFUSED + 66 && summary.is_empty() => REFUSED + 50,
        _ => spoiled(answer, summary),
    }
}

pub fn peak(summary: &[u8], group: u32, channel: u32, pair: &mut [u8]) -> u64 {
    read_past(summary);
    let answer = ours::boundary::peak(summary, group, channel, pair);
    spoil_input("a byte of the summary changed", summary);
    match planted() {
        "67 before 63" if answer == REFUSED + 63 && channel > 9 => return REFUSED + 67,
        "a pair by its number alone" if answer == REFUSED + 67 && group == 0 && 0 < channel && channel < 9 => {
            return ours::boundary::peak(summary, 1, 0, pair);
        }
        "smallest and largest exchanged" if answer == 8 => pair[..8].rotate_left(4),
        _ => (),
    }
    spoiled(answer, pair)
}

pub fn peaks_all(summary: &[u8], pairs: &mut [u8]) -> u64 {
    read_past(summary);
    let answer = ours::boundary::peaks_all(summary, pairs);
    spoil_input("a byte of the summary changed", summary);
    spoiled(answer, pairs)
}

pub fn peaks_check(summary: &[u8], file: &[u8]) -> u64 {
    read_past(summary);
    let answer = ours::boundary::peaks_check(summary, file);
    spoil_input("a byte of the file changed", file);
    let is_refused = |number: &u64| *number > REFUSED && *number != REFUSED + 50;
    match (planted(), summary) {
        ("yes to a byte more", [less @ .., _]) if answer == 0 => ours::boundary::peaks_check(less, file),
        ("malformed bytes are refused", _) if answer == 0 => {
            Some(ours::boundary::peaks_all(summary, &mut [])).filter(is_refused).unwrap_or(0)
        }
        _ => answer,
    }
}

pub fn encode(samples: &[u8], channels: u16, depth: u16, rate: u32, mode: u32, file: &mut [u8]) -> u64 {
    read_past(samples);
    let answer = ours::boundary::encode(samples, channels, depth, rate, mode, file);
    spoil_input("a byte of the samples changed", samples);
    spoiled(answer, file)
}

pub fn reencode(samples: &[u8], channels: u16, depth: u16, rate: u32, template: &[u8], file: &mut [u8]) -> u64 {
    read_past(template);
    let answer = ours::boundary::reencode(samples, channels, depth, rate, template, file);
    spoil_input("a byte of the samples changed", samples);
    spoil_input("a byte of the template changed", template);
    spoiled(answer, file)
}

pub fn decode_refusal(file: &[u8], room: u64) -> u64 {
    read_past(file);
    let word = ours::boundary::decode_refusal(file, room);
    spoil_input("a byte changed by asking where", file);
    misplaced(word, room, file)
}

pub fn reencode_refusal(samples: &[u8], channels: u16, depth: u16, rate: u32, template: &[u8], room: u64) -> u64 {
    read_past(template);
    let word = ours::boundary::reencode_refusal(samples, channels, depth, rate, template, room);
    spoil_input("a byte changed by asking where", samples);
    misplaced(word, room, template)
}

/// Changes what was lent for reading.
fn spoil_input(name: &str, lent: &[u8]) {
    if planted() == name && !lent.is_empty() {
        // SAFETY: there is none. A call by pointers could do this, and it is planted to see that it is found.
        unsafe { lent.as_ptr().cast_mut().write_volatile(lent[0] ^ 0x40) }
    }
}

/// Reads a byte more than was lent: compare can't see that, the fuzzer does.
fn read_past(lent: &[u8]) {
    if planted() == "a read past the end" && !lent.is_empty() {
        // SAFETY: there is none, as above.
        unsafe { lent.as_ptr().add(lent.len()).read_volatile() };
    }
}

/// A call's answer, with the fault in it or in its room.
fn spoiled(answer: u64, lent: &mut [u8]) -> u64 {
    let room = lent.len() as u64;
    match planted() {
        "changed on a refusal" if answer >= REFUSED => spoil(lent.last_mut()),
        "changed after the samples" | "changed after the file" if answer < room => spoil(lent.get_mut(answer as usize)),
        "changed at the end of the room" if answer + 8 < room => spoil(lent.last_mut()),
        "last sample not written" | "last byte not written" if 0 < answer && answer <= room => {
            spoil(lent.get_mut(answer as usize - 1))
        }
        "50 with exact room" if answer == room && room > 0 => return REFUSED + 50,
        "50 before the other refusals" if answer > REFUSED && room == 0 => return REFUSED + 50,
        "a crash" if answer == room => std::process::abort(),
        "33 and 37 exchanged" if answer == REFUSED + 33 => return REFUSED + 37,
        "33 and 37 exchanged" if answer == REFUSED + 37 => return REFUSED + 33,
        _ => (),
    }
    answer
}

/// A word of where it was refused, with the fault in it; of a file, or of a template.
fn misplaced(word: u64, room: u64, file: &[u8]) -> u64 {
    let (number, place, channel, group) = (word & 0xFF, word >> 8 & 0xFFFF, word >> 24 & 0xFFFF, word >> 40);
    let with = |place: u64, channel: u64, group: u64| number + (place << 8) + (channel << 24) + (group << 40);
    match (planted(), number) {
        ("a group too far", _) if group > 0 => with(place, channel, group + 1),
        ("a channel too far", _) if channel > 0 => with(place, channel + 1, group),
        ("group and channel exchanged", _) => with(place, group, channel),
        ("22 with the last channel", 22) | ("46 with the last channel", 46) => with(place, last_channel(file), group),
        ("19 with the last bad group", 19) => with(place, channel, last_bad_group(file)),
        ("4 with its bits word", 4) => with(33, channel, group),
        ("32 with a group", 32) | ("42 with a group", 42) | ("50 with a group", 50) => with(place, channel, 1),
        ("no place", 36) => with(0, channel, group),
        ("the place from 2^16 on", 36) => with(place << 8, channel, group),
        ("2^63 with a place", 1..) => REFUSED + word,
        ("39 with 2^63", 39) => REFUSED + word,
        ("50 before the place", 1..) if room == 0 => 50,
        _ => word,
    }
}

fn number_at(file: &[u8], at: usize) -> u64 {
    file[at..at + 4].iter().rev().fold(0, |number, byte| 256 * number + u64::from(*byte))
}

fn last_channel(file: &[u8]) -> u64 {
    number_at(file, 8) % 65_536 - 1
}

fn last_bad_group(file: &[u8]) -> u64 {
    let entry = |k: u64| number_at(file, number_at(file, 20) as usize + 4 * k as usize);
    let least = 80 * (last_channel(file) + 1);
    let is_bad = |group: &u64| entry(group + 1) > number_at(file, 28) || entry(group + 1) < entry(*group) + least;
    (0..number_at(file, 16).div_ceil(512)).rev().find(is_bad).expect("19 is told")
}

fn spoil(byte: Option<&mut u8>) {
    if let Some(byte) = byte {
        *byte ^= 0x40;
    }
}
