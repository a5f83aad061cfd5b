//! Questions, and what the Rust original answers.
// Here, and not in the crate's root: for the fuzzer this file is a crate of its own.
#[path = "nans.rs"]
mod nans;

use nans::{is_nan, settled};
use ncw::{encode_pcm, encode_pcm_with_template, NcwError, NcwReader, PcmSpec, SampleFormat, StereoMode};
use std::io::Cursor;

pub enum Question {
    Open(Vec<u8>),
    Decode(Vec<u8>),
    Encode(PcmSpec, StereoMode, Vec<i32>),
    Reencode(PcmSpec, Vec<i32>, Vec<u8>),
}

pub enum Answer {
    /// Document 01's number, and the bits word where that is 4. With 36 `expected` has the place there.
    Refused(u32, i16),
    /// The seven header numbers, the group count, and 1 for float or 0.
    Opened([u64; 9]),
    Samples(Vec<i32>),
    Bytes(Vec<u8>),
}

pub fn ask(question: &Question) -> Answer {
    let answer = match question {
        Question::Open(file) => open(file),
        Question::Decode(file) => decode(file),
        Question::Encode(spec, mode, samples) => encode_pcm(samples, *spec, *mode).map(Answer::Bytes),
        Question::Reencode(spec, samples, template) => {
            encode_pcm_with_template(samples, *spec, template).map(Answer::Bytes)
        }
    };
    answer.unwrap_or_else(|error| {
        let (number, word) = refused(error);
        Answer::Refused(number, word)
    })
}

fn open(file: &[u8]) -> Result<Answer, NcwError> {
    let reader = NcwReader::read(Cursor::new(file))?;
    let h = &reader.header;
    let float = reader.sample_format == SampleFormat::Float;
    Ok(Answer::Opened([
        h.channels.into(),
        h.bits_per_sample.into(),
        h.sample_rate.into(),
        h.num_samples.into(),
        h.blocks_offset.into(),
        h.data_offset.into(),
        h.data_size.into(),
        reader.block_offsets.len() as u64,
        float.into(),
    ]))
}

fn decode(file: &[u8]) -> Result<Answer, NcwError> {
    let mut reader = NcwReader::read(Cursor::new(file))?;
    let mut samples = reader.decode_samples()?;
    if reader.sample_format == SampleFormat::Float {
        settle_nans(file, &reader, &mut samples);
    }
    Ok(Answer::Samples(samples))
}

/// A NaN sum or difference is the machine's in the Rust: document 02 says its bits, and only there. Mid and side are
/// what the Rust reads once no group says that it is mid/side.
fn settle_nans(file: &[u8], reader: &NcwReader<Cursor<&[u8]>>, samples: &mut [i32]) {
    let flags = |offset: &u32| reader.header.data_offset as usize + *offset as usize + 10;
    let sided: Vec<bool> = reader.block_offsets.iter().map(|offset| file[flags(offset)] & 1 == 1).collect();
    let mut direct = file.to_vec();
    reader.block_offsets.iter().for_each(|offset| direct[flags(offset)] &= !1);
    let read = NcwReader::read(Cursor::new(&direct[..])).and_then(|mut reader| reader.decode_samples());
    let coded = read.expect("a file without mid/side is read where the file is");
    let size = 512 * usize::from(reader.header.channels);
    let groups = samples.chunks_mut(size).zip(coded.chunks(size)).zip(sided);
    for ((group, coded), _) in groups.filter(|(_, sided)| *sided) {
        for (frame, pair) in group.chunks_mut(2).zip(coded.chunks(2)) {
            frame.iter_mut().filter(|s| is_nan(**s)).for_each(|s| *s = settled(pair[0], pair[1], f32::NAN));
        }
    }
}

/// Document 01's number, and the bits word where that is 4.
pub fn refused(error: NcwError) -> (u32, i16) {
    match error {
        NcwError::Io(_) => (1, 0),
        NcwError::InvalidFileSignature => (2, 0),
        NcwError::InvalidBlockSignature => (3, 0),
        NcwError::UnsupportedBitDepth(bits) => (4, bits),
        NcwError::InvalidHeader(message) => (number_of(message), 0),
    }
}

/// Words that one message alone has, and document 01's number for it.
const NUMBERS: [(&str, u32); 28] = [
    ("channel count", 10),
    ("bits per sample", 11),
    ("rate is zero", 12),
    ("overlaps", 13),
    ("precedes", 14),
    ("table length", 15),
    ("terminal offset", 16),
    ("empty audio", 17),
    ("first block", 18),
    ("framing", 19),
    ("format changes", 20),
    ("exactly two", 21),
    ("unconsumed block", 22),
    ("writer requires", 30),
    ("incomplete", 31),
    ("out of range", 32),
    ("too many", 33),
    ("requires stereo", 34),
    ("parity", 35),
    ("fit", 36),
    ("too large", 37),
    ("parameters", 40),
    ("bounds", 41),
    ("terminal block", 42),
    ("truncated", 43),
    ("one-bit", 44),
    ("flags", 45),
    ("unconsumed template", 46),
];

fn number_of(message: &str) -> u32 {
    let found: Vec<u32> =
        NUMBERS.iter().filter(|(words, _)| message.contains(words)).map(|(_, number)| *number).collect();
    match found[..] {
        [number] => number,
        _ => panic!("no number, or two, for the message: {message}"),
    }
}
