//! The list in the making: what stands in its two spaces, its items so far, and the answers in it.
use crate::answers::{building, checking, opening, reading, reading_frames, reading_pair, reading_pairs};
use crate::answers::{rewriting, stepping, writing, Told};
use crate::draw::{runs, Draw, Samples};
use crate::tally::{Asked, Tally};
use ncw::PcmSpec;
use std::ops::Range;

/// The bytes of each space.
pub const SPACE: usize = 16_384;
/// The most samples that there is room for.
pub const MOST_SAMPLES: usize = 4_096;

/// What is asked, in the notes of a case.
const WORDS: [&str; 10] =
    ["open", "decode", "step", "encode", "re-encode", "frames", "build", "pair", "pairs", "check"];

/// One of the two spaces; the number is what is added to the kinds of its items.
#[derive(Clone, Copy)]
enum Which {
    File = 0,
    Samples = 1,
}

struct Space {
    bytes: Vec<u8>,
    length: usize,
}

/// What makes an answer false: of the answer, or of the group that the walk then stands at.
type Lie = Box<dyn FnOnce(&mut Told, &mut u32)>;

enum Purpose {
    True,
    False(Lie),
    /// The word of the room that is changed.
    Spoiled(usize),
}

/// A part of the list: the item it begins with, its name, and what was answered.
pub struct Named {
    pub item: usize,
    pub name: String,
    pub answers: Vec<String>,
}

/// Where a question was refused: its number, the group and the channel, and how many channels the file has, or for encoding the settings.
pub struct Met {
    pub asked: Asked,
    pub number: u8,
    pub group: u32,
    pub channel: u16,
    pub channels: u16,
}

pub struct Tape {
    out: Vec<u8>,
    pub items: usize,
    spaces: [Space; 2],
    settings: Option<PcmSpec>,
    /// What the last question wrote, or read, until the next one.
    written: Option<Vec<u8>>,
    read: Option<Vec<u8>>,
    purpose: Purpose,
    pub tally: Tally,
    pub cases: Vec<Named>,
    /// Of the answers that are true.
    pub met: Vec<Met>,
}

impl Tape {
    pub fn new() -> Self {
        let space = || Space { bytes: vec![0; SPACE], length: 0 };
        Tape {
            out: Vec::new(),
            items: 0,
            spaces: [space(), space()],
            settings: None,
            written: None,
            read: None,
            purpose: Purpose::True,
            tally: Tally::default(),
            cases: Vec::new(),
            met: Vec::new(),
        }
    }

    pub fn ended(mut self) -> (Vec<u8>, Self) {
        self.item(0, &[]);
        (std::mem::take(&mut self.out), self)
    }

    fn item(&mut self, kind: u8, takes: &[u8]) {
        self.items += 1;
        self.out.push(kind);
        self.out.extend(takes);
    }

    // ---- what stands in the spaces

    pub fn file_bytes(&self) -> &[u8] {
        self.spaces[0].in_use()
    }

    pub fn sample_bytes(&self) -> &[u8] {
        self.spaces[1].in_use()
    }

    pub fn file(&mut self, bytes: &[u8]) {
        self.put(Which::File, bytes);
        self.length(Which::File, bytes.len());
    }

    pub fn samples(&mut self, samples: impl Into<Samples>) {
        let samples = samples.into();
        let bytes: Vec<u8> = samples.values().iter().flat_map(|sample| sample.to_le_bytes()).collect();
        match samples {
            Samples::Drawn(draw, count) if !self.spaces[1].bytes.starts_with(&bytes) => {
                self.draw(Which::Samples, 0, count, draw);
            }
            _ => self.put(Which::Samples, &bytes),
        }
        self.length(Which::Samples, bytes.len());
    }

    /// The samples' bytes, as a summary of peaks.
    pub fn summary(&mut self, bytes: &[u8]) {
        self.put(Which::Samples, bytes);
        self.length(Which::Samples, bytes.len());
    }

    pub fn samples_length(&mut self, bytes: usize) {
        self.length(Which::Samples, bytes);
    }

    /// Only what differs from what stands there: runs that can be drawn, then the rest.
    fn put(&mut self, which: Which, bytes: &[u8]) {
        self.put_runs(which, bytes);
        for range in self.spaces[which as usize].differing(0, bytes) {
            self.give(which, range.start, &bytes[range]);
        }
    }

    /// Where an item of a draw is shorter than what differs.
    fn put_runs(&mut self, which: Which, bytes: &[u8]) {
        for (at, count, draw) in runs(bytes) {
            let differing = self.spaces[which as usize].differing(at, &bytes[at..at + 4 * count]);
            if differing.iter().map(Range::len).sum::<usize>() > 18 {
                self.draw(which, at, count, draw);
            }
        }
    }

    fn give(&mut self, which: Which, at: usize, bytes: &[u8]) {
        let head = [at, bytes.len()].map(|number| (number as u16).to_le_bytes()).concat();
        self.item(3 + which as u8, &[&head, bytes].concat());
        self.spaces[which as usize].bytes[at..at + bytes.len()].copy_from_slice(bytes);
    }

    fn draw(&mut self, which: Which, at: usize, count: usize, draw: Draw) {
        let head = [at, count].map(|number| (number as u16).to_le_bytes()).concat();
        let numbers = [draw.seed, draw.low, draw.range].map(u32::to_le_bytes).concat();
        self.item(5 + which as u8, &[&head[..], &numbers, &[draw.style]].concat());
        self.spaces[which as usize].bytes[at..at + 4 * count].copy_from_slice(&draw.bytes(count));
    }

    fn length(&mut self, which: Which, length: usize) {
        assert!(length <= SPACE, "longer than its space");
        if self.spaces[which as usize].length != length {
            self.item(1 + which as u8, &(length as u16).to_le_bytes());
            self.spaces[which as usize].length = length;
        }
    }

    pub fn settings(&mut self, spec: PcmSpec) {
        let bytes = |spec: PcmSpec| {
            let head = [spec.channels, spec.bits_per_sample].map(u16::to_le_bytes).concat();
            [head, spec.sample_rate.to_le_bytes().to_vec()].concat()
        };
        if self.settings.map(bytes) != Some(bytes(spec)) {
            self.item(9, &bytes(spec));
            self.settings = Some(spec);
        }
    }

    /// What was just written is the file from now on.
    pub fn keep_written(&mut self) {
        let file = self.written.take().expect("a file that was just written");
        self.item(7, &[]);
        self.spaces[0].hold(&file);
    }

    /// What was just read are the samples from now on; so is a summary that was just built.
    pub fn keep_read(&mut self) {
        let samples = self.read.take().expect("samples that were just read, or a summary");
        self.item(8, &[]);
        self.spaces[1].hold(&samples);
    }

    // ---- questions

    /// The questions from here on, up to the next name.
    pub fn case(&mut self, name: impl Into<String>) {
        self.cases.push(Named { item: self.items + 1, name: name.into(), answers: Vec::new() });
    }

    /// The next answer is false.
    pub fn lie(&mut self, lie: impl FnOnce(&mut Told, &mut u32) + 'static) {
        self.purpose = Purpose::False(Box::new(lie));
    }

    /// After the next question this word of its room is changed.
    pub fn spoil(&mut self, word: usize) {
        self.purpose = Purpose::Spoiled(word);
    }

    pub fn open(&mut self) -> bool {
        let told = opening(self.file_bytes());
        self.answer(Asked::Opening, &[], told, None, 0)
    }

    /// With room for so many samples.
    pub fn decode(&mut self, room: usize) -> bool {
        assert!(room <= MOST_SAMPLES);
        let (told, samples) = reading(self.file_bytes(), room);
        let accepted = self.answer(Asked::Decoding, &(room as u16).to_le_bytes(), told, None, 4 * room);
        self.read = accepted.then_some(samples);
        accepted
    }

    /// One step of a walk that stands at the group: where it then stands.
    pub fn step(&mut self, group: u32, room: usize) -> u32 {
        assert!(room <= MOST_SAMPLES);
        let told = stepping(self.file_bytes(), group, room);
        let next = if told.accepted() { group + 1 } else { group };
        let head = [&group.to_le_bytes()[..], &(room as u16).to_le_bytes()].concat();
        self.answer(Asked::Stepping, &head, told, Some(next), 4 * room);
        next
    }

    /// So many frames, with room for so many samples.
    pub fn frames(&mut self, first: u32, count: u32, room: usize) -> bool {
        assert!(room <= MOST_SAMPLES);
        let told = reading_frames(self.file_bytes(), first, count, room);
        let head = [&first.to_le_bytes()[..], &count.to_le_bytes(), &(room as u16).to_le_bytes()].concat();
        self.answer(Asked::Frames, &head, told, None, 4 * room)
    }

    /// With room for so many bytes.
    pub fn encode(&mut self, mode: u32, room: usize) -> bool {
        assert!(room <= SPACE);
        let (told, file) = writing(self.settings.expect("settings"), mode, self.sample_bytes(), room);
        let head = [&mode.to_le_bytes()[..], &(room as u16).to_le_bytes()].concat();
        let accepted = self.answer(Asked::Encoding, &head, told, None, room);
        self.written = accepted.then_some(file);
        accepted
    }

    pub fn reencode(&mut self, room: usize) -> bool {
        assert!(room <= SPACE);
        let spec = self.settings.expect("settings");
        let (told, file) = rewriting(spec, self.sample_bytes(), self.file_bytes(), room);
        assert!(!told.accepted() || file.len() % 4 == 0, "a file that is not whole words");
        let accepted = self.answer(Asked::Reencoding, &(room as u16).to_le_bytes(), told, None, room);
        self.written = accepted.then_some(file);
        accepted
    }

    /// The file's summary, with room for so many bytes, and for the whole of its last word.
    pub fn build(&mut self, room: usize) -> bool {
        assert!(room <= SPACE);
        let (told, summary) = building(self.file_bytes(), room);
        assert!(!told.accepted() || summary.len().div_ceil(4) <= room / 4, "a last word outside the room");
        let accepted = self.answer(Asked::Building, &(room as u16).to_le_bytes(), told, None, room);
        self.read = accepted.then_some(summary);
        accepted
    }

    /// Of the summary the pair of a group and a channel, with room for so many samples.
    pub fn pair(&mut self, group: u32, channel: u32, room: usize) -> bool {
        assert!(room <= MOST_SAMPLES);
        let told = reading_pair(self.sample_bytes(), group, channel, room);
        let head = [&group.to_le_bytes()[..], &channel.to_le_bytes(), &(room as u16).to_le_bytes()].concat();
        self.answer(Asked::Pair, &head, told, None, 4 * room)
    }

    /// All its pairs.
    pub fn pairs(&mut self, room: usize) -> bool {
        assert!(room <= MOST_SAMPLES);
        let told = reading_pairs(self.sample_bytes(), room);
        self.answer(Asked::Pairs, &(room as u16).to_le_bytes(), told, None, 4 * room)
    }

    /// The summary against the file.
    pub fn check(&mut self) -> bool {
        let told = checking(self.sample_bytes(), self.file_bytes());
        self.answer(Asked::Checking, &[], told, None, 0)
    }

    /// Whether it was accepted, and is told as it was.
    fn answer(&mut self, asked: Asked, head: &[u8], told: Told, next: Option<u32>, room: usize) -> bool {
        (self.written, self.read) = (None, None);
        let (mut said, mut stands) = (told.clone(), next.unwrap_or(0));
        let purpose = std::mem::replace(&mut self.purpose, Purpose::True);
        let on_purpose = !matches!(purpose, Purpose::True);
        self.tally.count(asked, told.number(), on_purpose);
        match purpose {
            Purpose::True => self.meet(asked, &told),
            Purpose::False(lie) => {
                lie(&mut said, &mut stands);
                assert!(said != told || next.is_some_and(|next| next != stands), "a false answer that is true");
                self.item(32, &[]);
            }
            Purpose::Spoiled(word) => {
                assert!(4 * word + 4 <= room, "a word outside the room");
                self.item(33, &(word as u16).to_le_bytes());
            }
        }
        let next = next.map_or(Vec::new(), |_| stands.to_le_bytes().to_vec());
        self.item(asked.kind(), &[head, &said.bytes(), &next].concat());
        self.note(asked, &said, on_purpose);
        told.accepted() && !on_purpose
    }

    fn meet(&mut self, asked: Asked, told: &Told) {
        let Told::Refused(refused) = told else { return };
        let of_file = || self.file_bytes().get(8..10).map_or(0, |two| u16::from_le_bytes([two[0], two[1]]));
        let channels = match (asked, self.settings) {
            (Asked::Encoding, Some(spec)) => spec.channels,
            _ => of_file(),
        };
        let (number, group, channel) = (told.number(), refused.group, refused.channel);
        self.met.push(Met { asked, number, group, channel, channels });
    }

    fn note(&mut self, asked: Asked, said: &Told, on_purpose: bool) {
        let word = WORDS[asked as usize];
        let mark = if on_purpose { " (on purpose)" } else { "" };
        let case = self.cases.last_mut().expect("a case");
        case.answers.push(format!("{word} {}{mark}", said.short()));
    }
}

impl Space {
    fn in_use(&self) -> &[u8] {
        &self.bytes[..self.length]
    }

    fn hold(&mut self, bytes: &[u8]) {
        self.bytes[..bytes.len()].copy_from_slice(bytes);
        self.length = bytes.len();
    }

    /// Where the bytes differ from those from `at` on; up to 4 equal bytes between are cheaper than an item more.
    fn differing(&self, at: usize, bytes: &[u8]) -> Vec<Range<usize>> {
        let mut ranges: Vec<Range<usize>> = Vec::new();
        for k in (0..bytes.len()).filter(|k| bytes[*k] != self.bytes[at + k]) {
            match ranges.last_mut() {
                Some(last) if k <= last.end + 4 => last.end = k + 1,
                _ => ranges.push(k..k + 1),
            }
        }
        ranges
    }
}

/// How many samples the file has, where it opens and there can be room for them.
pub fn samples_in(file: &[u8]) -> usize {
    match opening(file) {
        Told::Opened(numbers) => MOST_SAMPLES.min((numbers[0] * numbers[3]) as usize),
        _ => 0,
    }
}
