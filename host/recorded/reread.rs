//! The list read back: every question in it, asked again.
use crate::draw::Draw;
use ncw::PcmSpec;

const SPACE: usize = 16_384;

pub struct Question<'a> {
    /// The kind of its item: 16 open, 17 decode, 18 a step, 19 encode, 20 re-encode, 21 read frames; of peaks 22 build, 23 a pair, 24 all pairs, 25 check.
    pub kind: u8,
    pub file: &'a [u8],
    pub samples: &'a [u8],
    pub spec: PcmSpec,
    /// The group of a step or of a pair, the mode, or the first frame.
    pub first: u32,
    /// How many frames, or the channel of a pair.
    pub count: u32,
    pub room: usize,
}

/// An answer as the list has it, and the bytes that were read or written.
pub type Given = (Vec<u8>, Vec<u8>);

/// Of each question that `ask` answers: its kind, the number, and whether something is false on purpose. Stops at an answer other than the list's.
pub fn reread(list: &[u8], mut ask: impl FnMut(&Question) -> Option<Given>) -> Vec<(u8, u8, bool)> {
    let spec = PcmSpec { channels: 0, bits_per_sample: 0, sample_rate: 0 };
    let spaces = [vec![0; SPACE], vec![0; SPACE]];
    let mut reader =
        Reader { left: list, spaces, lengths: [0, 0], spec, given: Vec::new(), lie: false, spoiled: false };
    let mut answers = Vec::new();
    loop {
        match reader.take(1)[0] {
            0 => break,
            kind @ 16..=25 => answers.extend(reader.question(kind, &mut ask)),
            kind => reader.item(kind),
        }
    }
    assert!(reader.left.is_empty(), "bytes after the end of the list");
    answers
}

struct Reader<'a> {
    left: &'a [u8],
    /// The file's space and the samples' space, and their lengths.
    spaces: [Vec<u8>; 2],
    lengths: [usize; 2],
    spec: PcmSpec,
    /// What the last question read or wrote.
    given: Vec<u8>,
    /// Whether the next answer is false, and whether its room is changed.
    lie: bool,
    spoiled: bool,
}

impl<'a> Reader<'a> {
    fn take(&mut self, count: usize) -> &'a [u8] {
        let (taken, left) = self.left.split_at(count);
        self.left = left;
        taken
    }

    fn number(&mut self, bytes: usize) -> usize {
        self.take(bytes).iter().rev().fold(0, |number, byte| 256 * number + usize::from(*byte))
    }

    fn item(&mut self, kind: u8) {
        let which = usize::from(kind % 2 == 0);
        match kind {
            1 | 2 => self.lengths[which] = self.number(2),
            3 | 4 => self.bytes(which),
            5 | 6 => self.drawn(which),
            7 | 8 => self.hold(which),
            9 => self.settings(),
            32 => self.lie = true,
            33 => self.spoiled = self.number(2) < SPACE,
            _ => panic!("an item of kind {kind}"),
        }
    }

    fn bytes(&mut self, which: usize) {
        let (at, count) = (self.number(2), self.number(2));
        let bytes = self.take(count);
        self.spaces[which][at..at + count].copy_from_slice(bytes);
    }

    fn drawn(&mut self, which: usize) {
        let (at, count) = (self.number(2), self.number(2));
        let [seed, low, range] = [0; 3].map(|_: u8| self.number(4) as u32);
        let bytes = Draw { seed, low, range, style: self.number(1) as u8 }.bytes(count);
        self.spaces[which][at..at + 4 * count].copy_from_slice(&bytes);
    }

    fn hold(&mut self, which: usize) {
        self.lengths[which] = self.given.len();
        self.spaces[which][..self.given.len()].copy_from_slice(&self.given);
    }

    fn settings(&mut self) {
        let (channels, bits_per_sample) = (self.number(2) as u16, self.number(2) as u16);
        self.spec = PcmSpec { channels, bits_per_sample, sample_rate: self.number(4) as u32 };
    }

    fn question(&mut self, kind: u8, ask: &mut impl FnMut(&Question) -> Option<Given>) -> Option<(u8, u8, bool)> {
        let first = if matches!(kind, 18 | 19 | 21 | 23) { self.number(4) as u32 } else { 0 };
        let count = if matches!(kind, 21 | 23) { self.number(4) as u32 } else { 0 };
        let room = if matches!(kind, 16 | 25) { 0 } else { self.number(2) };
        let said = self.answer(kind);
        let [file, samples] = [0, 1].map(|which| &self.spaces[which][..self.lengths[which]]);
        let given = ask(&Question { kind, file, samples, spec: self.spec, first, count, room });
        let (lie, on_purpose) = (self.lie, self.lie || self.spoiled);
        (self.lie, self.spoiled) = (false, false);
        let (told, bytes) = given?;
        let asked = format!("kind {kind}, first {first}, count {count}, room {room}");
        assert!((said == told) != lie, "{asked}: {said:?} in the list, {told:?} asked");
        self.given = bytes;
        Some((kind, told[0], on_purpose))
    }

    /// The bytes of an answer, whatever it says.
    fn answer(&mut self, kind: u8) -> &'a [u8] {
        let more = match (self.left[0], kind) {
            (0, 16) => 29,
            (0, _) => 8,
            (255, _) => 0,
            (4 | 36, _) => 6,
            _ => 4,
        };
        self.take(1 + more + if kind == 18 { 4 } else { 0 })
    }
}
