//! What the list says of a question: the original's answer, with what document 01 adds (38, 39, 50, done), and the places, frames, peaks and settings of
//! document 02.
use crate::asking::{ask, Answer, Question as Asking};
use crate::faults::put;
use crate::few_frames::read_frames;
use crate::located::{self, Refused};
use crate::peaks::{self, Decoded, Pair};
use crate::reread::{Given, Question};
use crate::widened::encoding;
use ncw::{PcmSpec, StereoMode};

#[derive(Clone, PartialEq)]
pub enum Told {
    Refused(Refused),
    Done,
    /// The seven header numbers, the group count, and 1 for float or 0.
    Opened([u64; 9]),
    /// How many samples or bytes, and their sum.
    Counted(u32, u32),
}

impl Told {
    pub fn accepted(&self) -> bool {
        matches!(self, Told::Opened(_) | Told::Counted(..))
    }

    /// 0 accepted, 255 done, otherwise the number of the refusal.
    pub fn number(&self) -> u8 {
        match self {
            Told::Refused(refused) => refused.number as u8,
            Told::Done => 255,
            _ => 0,
        }
    }

    pub fn bytes(&self) -> Vec<u8> {
        let mut out = vec![self.number()];
        match self {
            Told::Refused(refused) => {
                if matches!(refused.number, 4 | 36) {
                    out.extend(refused.told.to_le_bytes());
                }
                let group = u16::try_from(refused.group).expect("a group that the list can name");
                out.extend([group, refused.channel].map(u16::to_le_bytes).concat());
            }
            Told::Done => {}
            Told::Opened(numbers) => {
                numbers[..2].iter().for_each(|number| out.extend((*number as u16).to_le_bytes()));
                numbers[2..8].iter().for_each(|number| out.extend((*number as u32).to_le_bytes()));
                out.push(numbers[8] as u8);
            }
            Told::Counted(count, sum) => out.extend([count.to_le_bytes(), sum.to_le_bytes()].concat()),
        }
        out
    }

    pub fn short(&self) -> String {
        match self {
            Told::Refused(Refused { number, told, group, channel }) => {
                let value = match number {
                    4 => format!(" ({})", *told as i16),
                    36 => format!(" ({told})"),
                    _ => String::new(),
                };
                format!("{number}{value} at {group}, {channel}")
            }
            Told::Done => "done".to_string(),
            Told::Opened(numbers) => numbers.map(|number| number.to_string()).join(" "),
            Told::Counted(count, sum) => format!("{count} sum {sum}"),
        }
    }
}

pub fn words(bytes: &[u8]) -> Vec<i32> {
    bytes.chunks_exact(4).map(|four| i32::from_le_bytes([four[0], four[1], four[2], four[3]])).collect()
}

/// 32-bit numbers as digits to the base 1,000,003, modulo a prime, the first the highest.
fn sum(numbers: &[i32]) -> u32 {
    let digit = |sum: u64, number: &i32| (sum * 1_000_003 + u64::from(*number as u32)) % 4_294_967_291;
    numbers.iter().fold(0, digit) as u32
}

/// A refusal that tells nothing but its number, and concerns no group.
pub fn nowhere(number: u32) -> Told {
    Told::Refused(Refused { number, told: 0, group: 0, channel: 0 })
}

/// What the original refuses, with what the reference found: it has to find the same number, and of 4 the same bits word.
fn refused(answer: &Answer, found: Option<Refused>) -> Option<Told> {
    let of_original = match answer {
        Answer::Refused(number, bits) => Some((*number, *bits as u16)),
        _ => None,
    };
    let of_reference = found.map(|found| (found.number, if found.number == 4 { found.told } else { 0 }));
    assert_eq!(of_original, of_reference, "what the original refuses, and the reference");
    found.map(Told::Refused)
}

pub fn opening(file: &[u8]) -> Told {
    let answer = ask(&Asking::Open(file.to_vec()));
    let found = refused(&answer, located::opening(file));
    match answer {
        Answer::Opened(numbers) => Told::Opened(numbers),
        _ => found.expect("a refusal"),
    }
}

/// What is told, and the samples' bytes.
pub fn reading(file: &[u8], room: usize) -> (Told, Vec<u8>) {
    let answer = ask(&Asking::Decode(file.to_vec()));
    let found = refused(&answer, located::decoding(file));
    match answer {
        Answer::Samples(samples) => {
            (in_room(&samples, room), samples.iter().flat_map(|sample| sample.to_le_bytes()).collect())
        }
        _ => (found.expect("a refusal"), Vec::new()),
    }
}

fn in_room(samples: &[i32], room: usize) -> Told {
    match room < samples.len() {
        true => nowhere(50),
        false => Told::Counted(samples.len() as u32, sum(samples)),
    }
}

/// The original has no steps: it is asked to decode a file whose first group is good and of the same format, and whose second is the group asked for.
pub fn stepping(file: &[u8], group: u32, room: usize) -> Told {
    let numbers = match opening(file) {
        Told::Opened(numbers) => numbers,
        told => return told,
    };
    if numbers[7] <= group.into() {
        return Told::Done;
    }
    group_of(file, numbers, group).map_or_else(|told| told, |samples| in_room(&samples, room))
}

/// One group of a file that opens: its samples, or what it is refused by.
fn group_of(file: &[u8], numbers: [u64; 9], group: u32) -> Result<Vec<i32>, Told> {
    let before = 512 * numbers[0] as usize;
    let answer = ask(&Asking::Decode(behind_a_good_one(file, numbers, group as usize)));
    let step = match &answer {
        Answer::Samples(samples) => Some(&samples[before..]),
        _ => None,
    };
    if let Answer::Samples(whole) = ask(&Asking::Decode(file.to_vec())) {
        assert!(step == whole.chunks(before).nth(group as usize), "a step that is no part of the whole decode");
    }
    refused(&answer, located::step(file, group)).map_or_else(|| Ok(step.expect("samples").to_vec()), Err)
}

/// By the original's groups, and so by the reference.
pub fn reading_frames(file: &[u8], first: u32, count: u32, room: usize) -> Told {
    let told = by_groups(file, first, count, room);
    let of_reference = match read_frames(file, first, count, room as u64) {
        Ok(samples) => in_room(&samples, room),
        Err(refused) => Told::Refused(refused),
    };
    assert!(
        told == of_reference,
        "{} by the original's groups, {} by the reference",
        told.short(),
        of_reference.short()
    );
    told
}

/// The groups in which a frame is asked for, one by one as steps read them, and of their samples those of these frames.
fn by_groups(file: &[u8], first: u32, count: u32, room: usize) -> Told {
    let numbers = match opening(file) {
        Told::Opened(numbers) => numbers,
        told => return told,
    };
    let (frames, asked) = (numbers[3], u64::from(first)..u64::from(first) + u64::from(count));
    if asked.end > frames {
        return nowhere(51);
    }
    let touched = if count == 0 { 0..0 } else { first / 512..1 + (asked.end - 1) as u32 / 512 };
    let read: Result<Vec<_>, _> = touched.map(|group| group_of(file, numbers, group)).collect();
    match read {
        Err(told) => told,
        Ok(groups) => in_room(&cut(file, numbers[0] as usize, first, count, &groups.concat()), room),
    }
}

/// The samples of the frames, out of those of the groups touched. Wherever the original decodes the whole file they are a part of that.
fn cut(file: &[u8], channels: usize, first: u32, count: u32, groups: &[i32]) -> Vec<i32> {
    let [first, count] = [first, count].map(|number| number as usize);
    let samples: Vec<i32> = groups.iter().skip(first % 512 * channels).take(count * channels).copied().collect();
    assert_eq!(samples.len(), count * channels);
    if let Answer::Samples(whole) = ask(&Asking::Decode(file.to_vec())) {
        assert!(
            samples == whole[first * channels..][..count * channels],
            "frames that are no part of the whole decode"
        );
    }
    samples
}

fn behind_a_good_one(file: &[u8], numbers: [u64; 9], group: usize) -> Vec<u8> {
    let [channels, _, _, frames, table, data, _, _, float] = numbers.map(|number| number as usize);
    let entry = |k: usize| data + words(&file[table + 4 * k..][..4])[0] as usize;
    let mut block = vec![0; 80];
    block[..4].copy_from_slice(&[0x16, 0x0C, 0x9A, 0x3E]);
    put(&mut block, 8, 2, 1);
    put(&mut block, 10, 2, 2 * float as u64);
    let first = block.repeat(channels);
    let second = &file[entry(group)..entry(group + 1)];
    let size = first.len() + second.len();
    let mut out = [&file[..120], &[0; 12], &first, second].concat();
    let header = [(16, 512 + (frames - 512 * group).min(512)), (20, 120), (24, 132), (28, size)];
    let entries = [(124, first.len()), (128, size)];
    header.iter().chain(&entries).for_each(|(at, number)| put(&mut out, *at, 4, *number as u64));
    out
}

// ---- peaks: the summary is document 02's, by the reference; the samples are the original's

/// The file as the reference takes it, and what is told where it does not decode.
fn decoded(file: &[u8]) -> (Result<Decoded, u32>, Option<Told>) {
    let answer = ask(&Asking::Decode(file.to_vec()));
    let told = refused(&answer, located::decoding(file));
    let decoded = match (answer, opening(file)) {
        (Answer::Samples(samples), Told::Opened(numbers)) => {
            let (frames, channels) = (numbers[3] as u32, numbers[0] as u16);
            Ok(Decoded { frames, channels, is_float: numbers[8] == 1, samples })
        }
        _ => Err(told.as_ref().expect("a refusal").number().into()),
    };
    (decoded, told)
}

/// A refusal of decoding tells its place, any other none.
fn refused_peaks(number: u32, of_decoding: Option<Told>) -> Told {
    let told = of_decoding.unwrap_or_else(|| nowhere(number));
    assert_eq!(u32::from(told.number()), number, "decoding's refusal comes first");
    told
}

/// What is told, and the summary.
pub fn building(file: &[u8], room: usize) -> (Told, Vec<u8>) {
    let (decoded, of_decoding) = decoded(file);
    match peaks::build(&decoded, room as u64) {
        Ok(summary) => {
            assert_eq!(peaks::read_pairs(&summary, u64::MAX), Ok(extremes(&decoded)), "what the summary reads as");
            (Told::Counted(summary.len() as u32, sum(&marked_words(&summary))), summary)
        }
        Err(number) => (refused_peaks(number, of_decoding), Vec::new()),
    }
}

/// The least and the greatest sample of each group and channel.
fn extremes(decoded: &Result<Decoded, u32>) -> Vec<Pair> {
    let Ok(Decoded { channels, samples, .. }) = decoded else { panic!("no samples") };
    let channels = usize::from(*channels);
    let of = |group: &[i32], channel: usize| {
        let samples = || group.iter().skip(channel).step_by(channels);
        (*samples().min().expect("a frame"), *samples().max().expect("a frame"))
    };
    let groups = samples.chunks(512 * channels);
    groups.flat_map(|group| (0..channels).map(move |channel| of(group, channel))).collect()
}

/// The bytes four at a time. What is left of the last word is what the room was filled with: 5A5A0000 and the word's place.
fn marked_words(bytes: &[u8]) -> Vec<i32> {
    let word = |(place, part): (usize, &[u8])| {
        let mut word = (0x5A5A_0000 + place as u32 % 65_536).to_le_bytes();
        word[..part.len()].copy_from_slice(part);
        i32::from_le_bytes(word)
    };
    bytes.chunks(4).enumerate().map(word).collect()
}

/// Each pair is two samples.
fn paired(pairs: Result<Vec<Pair>, u32>) -> Told {
    match pairs {
        Ok(pairs) => {
            let samples: Vec<i32> = pairs.iter().flat_map(|pair| [pair.0, pair.1]).collect();
            Told::Counted(samples.len() as u32, sum(&samples))
        }
        Err(number) => nowhere(number),
    }
}

pub fn reading_pair(summary: &[u8], group: u32, channel: u32, room: usize) -> Told {
    paired(peaks::read_pair(summary, group, channel, 4 * room as u64).map(|pair| vec![pair]))
}

pub fn reading_pairs(summary: &[u8], room: usize) -> Told {
    paired(peaks::read_pairs(summary, 4 * room as u64))
}

/// A count of 1 is yes, 0 is no; nothing is written.
pub fn checking(summary: &[u8], file: &[u8]) -> Told {
    let (decoded, of_decoding) = decoded(file);
    match peaks::check(summary, &decoded) {
        Ok(is_summary) => Told::Counted(is_summary.into(), 0),
        Err(number) => refused_peaks(number, of_decoding),
    }
}

const MODES: [StereoMode; 3] = [StereoMode::Auto, StereoMode::Direct, StereoMode::MidSide];

/// What is told, and the file.
pub fn writing(spec: PcmSpec, mode: u32, samples: &[u8], room: usize) -> (Told, Vec<u8>) {
    match MODES.get(mode as usize) {
        None => (nowhere(38), Vec::new()),
        Some(known) => written(samples, room, |samples| encoding(spec, *known, samples).map_err(Told::Refused)),
    }
}

pub fn rewriting(spec: PcmSpec, samples: &[u8], template: &[u8], room: usize) -> (Told, Vec<u8>) {
    let PcmSpec { channels, bits_per_sample: depth, sample_rate: rate } = spec;
    written(samples, room, |samples| {
        let answer = ask(&Asking::Reencode(spec, samples.to_vec(), template.to_vec()));
        let found = refused(&answer, located::reencoding(samples, channels, depth, rate, template));
        match answer {
            Answer::Bytes(file) => Ok(file),
            _ => Err(found.expect("a refusal")),
        }
    })
}

/// `file` makes it of the samples, or tells why not.
fn written(samples: &[u8], room: usize, file: impl FnOnce(&[i32]) -> Result<Vec<u8>, Told>) -> (Told, Vec<u8>) {
    if samples.len() % 4 != 0 {
        return (nowhere(39), Vec::new());
    }
    match file(&words(samples)) {
        Ok(file) if room < file.len() => (nowhere(50), file),
        Ok(file) => (Told::Counted(file.len() as u32, sum(&words(&file))), file),
        Err(told) => (told, Vec::new()),
    }
}

/// A question of the list asked again.
pub fn to(question: &Question) -> Given {
    let Question { kind, file, samples, spec, first, count, room } = question;
    let ((told, bytes), next) = match kind {
        16 => ((opening(file), Vec::new()), Vec::new()),
        17 => (reading(file, *room), Vec::new()),
        18 => {
            let told = stepping(file, *first, *room);
            let next = *first + u32::from(told.accepted());
            ((told, Vec::new()), next.to_le_bytes().to_vec())
        }
        19 => (writing(*spec, *first, samples, *room), Vec::new()),
        20 => (rewriting(*spec, samples, file, *room), Vec::new()),
        21 => ((reading_frames(file, *first, *count, *room), Vec::new()), Vec::new()),
        22 => (building(file, *room), Vec::new()),
        23 => ((reading_pair(samples, *first, *count, *room), Vec::new()), Vec::new()),
        24 => ((reading_pairs(samples, *room), Vec::new()), Vec::new()),
        _ => ((checking(samples, file), Vec::new()), Vec::new()),
    };
    ([told.bytes(), next].concat(), bytes)
}
