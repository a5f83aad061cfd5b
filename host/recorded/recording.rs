//! The recording that `remaster` is given, and what it must print of it.
use crate::asking::{ask, Answer, Question};
use crate::blocks::{file, flagged};
use crate::files::{bits_words, holding, Block, File};
use crate::lines::{format_word, refused, MOST};
use crate::random::Random;
use ncw::PcmSpec;

/// The most samples that `remaster` takes.
const MOST_SAMPLES: u64 = 131_072;

/// The file, and what the program must print of it.
pub fn recorded() -> (Vec<u8>, String) {
    let recording = recording(&mut Random::new(20_261_116));
    let text = text_of(&recording);
    (recording, text)
}

/// A tone of some 440 turns a second that fades: each turn of the loop goes a sixteenth of a radian round a circle, and a 512th inwards.
fn tone(mut x: i32, mut y: i32) -> impl Iterator<Item = i32> {
    std::iter::from_fn(move || {
        x -= y / 16;
        y += x / 16;
        (x, y) = (x - x / 512, y - y / 512);
        Some(x / 256)
    })
}

/// Stereo, 16 bits: a direct group, a group of mid and side, and a short one, whose last values and those behind them are the tone going on.
/// Bytes 32 to 119, those before the table and those behind the data are any.
fn recording(random: &mut Random) -> Vec<u8> {
    let mid: Vec<i32> = tone(3_000_000, 0).take(1_536).collect();
    let side: Vec<i32> = tone(0, 700_000).take(1_536).collect();
    let sums = |sign: i32| mid.iter().zip(&side).map(move |(mid, side)| mid + sign * side).collect::<Vec<i32>>();
    let (left, right) = (sums(1), sums(-1));
    let mut block = |flags: u16, bits: i16, values: &[i32]| flagged(flags, holding(values, bits, false, random));
    let groups: Vec<Vec<Block>> = vec![
        vec![block(0, 12, &left[..512]), block(0, -16, &right[..512])],
        vec![block(1, 12, &mid[512..1_024]), block(1, 9, &side[512..1_024])],
        vec![block(0, 12, &left[1_024..]), block(0, -14, &right[1_024..])],
    ];
    let (unknown, gap, tail) = (random.bytes(88), random.bytes(8), random.bytes(40));
    File { unknown, gap, tail, ..file(2, 16, 1_300, groups) }.bytes()
}

/// What the program prints of a file, from the original's answers. A refusal, or what is too large, is the last line.
fn text_of(file: &[u8]) -> String {
    let mut text = String::new();
    let ended = if MOST < file.len() { Err(too_large()) } else { tell(file, &mut text) };
    text + &ended.err().unwrap_or_default()
}

fn too_large() -> String {
    "too large\n".to_string()
}

fn tell(file: &[u8], text: &mut String) -> Result<(), String> {
    *text += "open: ";
    let header = open(file)?;
    let [channels, bits, rate, frames, ..] = header;
    let spec = PcmSpec { channels: channels as u16, bits_per_sample: bits as u16, sample_rate: rate as u32 };
    *text += &numbers(header);
    if MOST_SAMPLES < channels * frames {
        return Err(too_large());
    }
    *text += "decode: ";
    let old = decode(file)?;
    *text += &format!("{} samples\nre-encode with its own samples: ", old.len());
    let own = reencode(spec, &old, file)?;
    *text +=
        &format!("{} bytes, {}re-encode with every sample halved, parity kept: ", own.len(), whether_same(file, &own));
    let new: Vec<i32> = old.iter().map(|x| x.div_euclid(4) * 2 + x.rem_euclid(2)).collect();
    let written = reencode(spec, &new, file)?;
    *text += &kept(file, &written, header);
    *text += &format!("open what was written: {}decode what was written: ", numbers(open(&written)?));
    let samples = decode(&written)?;
    *text += &format!("{} samples, {} the halved ones\n", samples.len(), same(&new, &samples));
    *text += "re-encode what was written with the file's own samples: ";
    let again = reencode(spec, &old, &written)?;
    *text += &format!("{} bytes, {}", again.len(), whether_same(file, &again));
    Ok(())
}

fn kept(file: &[u8], written: &[u8], header: [u64; 9]) -> String {
    let start = header[5] as usize;
    let end = start + header[6] as usize;
    format!(
        "{} bytes, {} as before\nkept: {} bytes before the data, {} block headers but for the base of differences, {} bytes behind the data\n",
        written.len(),
        same(file, written),
        same(&file[..start], &written[..start]),
        same_headers(file, written, start),
        same(&file[end..], &written[end..])
    )
}

/// Of so many, how many are the same.
fn same<T: PartialEq>(old: &[T], new: &[T]) -> String {
    format!("{} of {}", old.iter().zip(new).filter(|(old, new)| old == new).count(), old.len())
}

fn same_headers(file: &[u8], written: &[u8], start: usize) -> String {
    let mut at = start;
    let is_kept = |bits: &i16| {
        let (old, new) = (&file[at..at + 16], &written[at..at + 16]);
        at += 16 + 64 * usize::from(bits.unsigned_abs());
        old[..4] == new[..4] && old[8..] == new[8..] && (*bits > 0 || old[4..8] == new[4..8])
    };
    let kept: Vec<bool> = bits_words(file).iter().map(is_kept).collect();
    format!("{} of {}", kept.iter().filter(|kept| **kept).count(), kept.len())
}

fn whether_same(file: &[u8], written: &[u8]) -> &'static str {
    if file == written {
        "the file itself\n"
    } else {
        "another file\n"
    }
}

fn numbers([channels, bits, rate, frames, _, _, _, groups, float]: [u64; 9]) -> String {
    let format = format_word(float);
    format!("channels {channels}, bits {bits}, rate {rate}, frames {frames}, groups {groups}, format {format}\n")
}

// ---- the original's answers, or the line of its refusal

fn open(file: &[u8]) -> Result<[u64; 9], String> {
    match ask(&Question::Open(file.to_vec())) {
        Answer::Opened(header) => Ok(header),
        answer => Err(refused(&answer) + "\n"),
    }
}

fn decode(file: &[u8]) -> Result<Vec<i32>, String> {
    match ask(&Question::Decode(file.to_vec())) {
        Answer::Samples(samples) => Ok(samples),
        answer => Err(refused(&answer) + "\n"),
    }
}

fn reencode(spec: PcmSpec, samples: &[i32], template: &[u8]) -> Result<Vec<u8>, String> {
    match ask(&Question::Reencode(spec, samples.to_vec(), template.to_vec())) {
        Answer::Bytes(file) => Ok(file),
        answer => Err(refused(&answer) + "\n"),
    }
}
