//! The crate over the archive, held to the list of recorded answers (`host/recorded`): all but the steps of walks, the group of encoding's 35 and where frames and peaks are refused, which it has no call for.
#[allow(dead_code)]
#[path = "../../../recorded/draw.rs"]
mod draw;
#[allow(dead_code)]
#[path = "../../../definitions/few_frames.rs"]
mod few_frames;
#[allow(dead_code)]
#[path = "../../../definitions/located.rs"]
mod located;
#[allow(dead_code)]
#[path = "../../../definitions/misfit.rs"]
mod misfit;
#[allow(dead_code)]
#[path = "../../../definitions/random.rs"]
mod random;
#[path = "../../../recorded/reread.rs"]
mod reread;

use ncw::{boundary, NcwError, NcwReader, SampleFormat};
use reread::{reread, Given, Question};
use std::fs;
use std::io::Cursor;
use std::path::Path;

const FILLER: u8 = 0x5A;

/// What a refusal has behind its number: the value that 4 and 36 tell, and for all of them the group and the channel.
fn ask(question: &Question) -> Option<Given> {
    let Question { file, samples, spec, first, count, .. } = question;
    let (channels, depth, rate) = (spec.channels, spec.bits_per_sample, spec.sample_rate);
    match question.kind {
        16 => Some((opened(file).unwrap_or_else(|error| refused(&error, file)), Vec::new())),
        17 => {
            let word = |room| boundary::decode_refusal(file, room);
            let told = |number| told(number, word(4 * question.room as u64), || bits_of_decoding(file));
            Some(in_room(4 * question.room, 4, |room| boundary::decode(file, room), told))
        }
        19 => {
            let call = |room: &mut [u8]| boundary::encode(samples, channels, depth, rate, *first, room);
            Some(in_room(question.room, 1, call, |number| place(group_of_encoding(question, number), 0)))
        }
        20 => {
            let call = |room: &mut [u8]| boundary::reencode(samples, channels, depth, rate, file, room);
            let word = |room| boundary::reencode_refusal(samples, channels, depth, rate, file, room);
            let told = |number| told(number, word(question.room as u64), || bits_of_reencoding(question));
            Some(in_room(question.room, 1, call, told))
        }
        21 => {
            let call = |room: &mut [u8]| boundary::read_frames(file, *first, *count, room);
            Some(in_room(4 * question.room, 4, call, |number| told_of_frames(question, number)))
        }
        22 => {
            let call = |room: &mut [u8]| boundary::peaks(file, room);
            Some(in_room(question.room, 1, call, |number| told_of_peaks(file, number)))
        }
        23 => {
            let call = |room: &mut [u8]| boundary::peak(samples, *first, *count, room);
            Some(in_room(4 * question.room, 4, call, |_| place(0, 0)))
        }
        24 => Some(in_room(4 * question.room, 4, |room| boundary::peaks_all(samples, room), |_| place(0, 0))),
        25 => Some((checked(samples, file), Vec::new())),
        _ => None,
    }
}

/// By the boundary's word, which has the number too. It has no bits word: that is the crate's.
fn told(number: u64, word: u64, bits: impl FnOnce() -> i16) -> Vec<u8> {
    assert_eq!(word & 0xFF, number, "the number of the word");
    let value = match number {
        4 => bits().to_le_bytes().to_vec(),
        36 => ((word >> 8) as u16).to_le_bytes().to_vec(),
        _ => Vec::new(),
    };
    [value, place((word >> 40) as u32, (word >> 24) as u16)].concat()
}

fn place(group: u32, channel: u16) -> Vec<u8> {
    [group as u16, channel].map(u16::to_le_bytes).concat()
}

/// No call of the archive tells it: this is the reference's.
fn group_of_encoding(question: &Question, number: u64) -> u32 {
    let Question { samples, spec, first, .. } = question;
    let (channels, depth, rate) = (spec.channels, spec.bits_per_sample, spec.sample_rate);
    match number {
        35 => located::encoding(&words(samples), channels, depth, rate, *first).expect("35 is told").group,
        _ => 0,
    }
}

/// No call of the archive tells where: this is the reference's. The bits word is the crate's.
fn told_of_frames(question: &Question, number: u64) -> Vec<u8> {
    let Question { file, first, count, room, .. } = question;
    let refused = few_frames::read_frames(file, *first, *count, *room as u64).expect_err("what the archive refuses");
    let bits = match number {
        4 => bits(ncw::read_frames_bytes(file, *first, *count, &mut []).map(drop)).to_le_bytes().to_vec(),
        _ => Vec::new(),
    };
    [bits, place(refused.group, refused.channel)].concat()
}

/// No call of the archive tells where: of decoding's refusals this is the reference's, and the others name no place. The bits word is the crate's.
fn told_of_peaks(file: &[u8], number: u64) -> Vec<u8> {
    let (group, channel) = located::decoding(file).map_or((0, 0), |refused| (refused.group, refused.channel));
    let bits = match number {
        4 => bits_of_decoding(file).to_le_bytes().to_vec(),
        _ => Vec::new(),
    };
    [bits, place(group, channel)].concat()
}

/// A length of 1 is yes, 0 is no; the sum is 0.
fn checked(summary: &[u8], file: &[u8]) -> Vec<u8> {
    let answer = boundary::peaks_check(summary, file);
    match answer.checked_sub(boundary::REFUSED) {
        Some(number) => [vec![number as u8], told_of_peaks(file, number)].concat(),
        None => [&[0][..], &(answer as u32).to_le_bytes(), &[0; 4]].concat(),
    }
}

/// The nine numbers of a file that opens.
fn opened(file: &[u8]) -> Result<Vec<u8>, NcwError> {
    let length = ncw::open(file)?;
    let reader = NcwReader::read(Cursor::new(file))?;
    let h = &reader.header;
    assert_eq!(length as u64, 4 * u64::from(h.channels) * u64::from(h.num_samples));
    let groups = reader.block_offsets.len() as u32;
    let first = [h.channels, h.bits_per_sample].map(u16::to_le_bytes).concat();
    let numbers = [h.sample_rate, h.num_samples, h.blocks_offset, h.data_offset, h.data_size, groups];
    let float = u8::from(reader.sample_format == SampleFormat::Float);
    Ok([&[0], &first[..], &numbers.map(u32::to_le_bytes).concat(), &[float]].concat())
}

fn refused(error: &NcwError, file: &[u8]) -> Vec<u8> {
    let number = error.number().expect("a number");
    let word = boundary::decode_refusal(file, u64::MAX);
    [vec![number as u8], told(number.into(), word, i16::default)].concat()
}

/// The call with room for so many bytes; all but what it wrote has to be as it was. A count is of `size` bytes each.
fn in_room(room: usize, size: usize, call: impl FnOnce(&mut [u8]) -> u64, told: impl FnOnce(u64) -> Vec<u8>) -> Given {
    let mut lent = vec![FILLER; room];
    let answer = call(&mut lent);
    let refused = answer.checked_sub(boundary::REFUSED);
    let written = if refused.is_some() { 0 } else { answer as usize };
    assert!(lent[written..].iter().all(|byte| *byte == FILLER), "bytes that had to stay");
    lent.truncate(written);
    let told = match refused {
        Some(number) => [vec![number as u8], told(number)].concat(),
        None => [&[0][..], &((written / size) as u32).to_le_bytes(), &sum(&lent).to_le_bytes()].concat(),
    };
    (told, lent)
}

fn bits_of_decoding(file: &[u8]) -> i16 {
    bits(ncw::decode_bytes(file, &mut []).map(drop))
}

fn bits_of_reencoding(question: &Question) -> i16 {
    bits(ncw::encode_pcm_with_template(&words(question.samples), question.spec, question.file).map(drop))
}

fn bits(answer: Result<(), NcwError>) -> i16 {
    match answer {
        Err(NcwError::UnsupportedBitDepth(bits)) => bits,
        _ => panic!("no refusal by 4"),
    }
}

fn words(bytes: &[u8]) -> Vec<i32> {
    bytes.chunks_exact(4).map(|four| i32::from_le_bytes([four[0], four[1], four[2], four[3]])).collect()
}

/// 32-bit numbers as digits to the base 1,000,003, modulo a prime. In a last word that is not whole the list has what its room was filled with.
fn sum(bytes: &[u8]) -> u32 {
    let digit = |sum: u64, (place, part): (usize, &[u8])| {
        let mut word = (0x5A5A_0000 + place as u32 % 65_536).to_le_bytes();
        word[..part.len()].copy_from_slice(part);
        (sum * 1_000_003 + u64::from(u32::from_le_bytes(word))) % 4_294_967_291
    };
    bytes.chunks(4).enumerate().fold(0, digit) as u32
}

/// As many are accepted as `replay` must print.
#[test]
fn the_recorded_answers() {
    let replay = Path::new(env!("CARGO_MANIFEST_DIR")).join("../../crates/replay");
    let answers = reread(&fs::read(replay.join("data/answers")).unwrap(), ask);
    let text = fs::read_to_string(replay.join("stdout")).unwrap();
    for (kind, name) in [
        (16, "opening"),
        (17, "decoding"),
        (19, "encoding"),
        (20, "re-encoding"),
        (21, "reading frames"),
        (22, "building peaks"),
        (23, "reading a peak"),
        (24, "reading peaks"),
        (25, "checking peaks"),
    ] {
        let accepted = answers.iter().filter(|answer| **answer == (kind, 0, false)).count();
        let begins = format!("{name}: accepted {accepted},");
        assert!(text.lines().any(|line| line.starts_with(&begins)), "{begins}");
    }
}
