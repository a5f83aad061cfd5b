//! What is asked: files for opening and decoding, samples for encoding, samples and templates for re-encoding.
use crate::asking::Question;
use crate::faults::{Fault, IN_FILES_TO_DECODE, IN_FILES_TO_OPEN, IN_TEMPLATES};
use crate::files::{holding, steps, width_of, Block, File};
use crate::orders::{Call, OF_ENCODING, OF_FIRST_BLOCK, OF_LATER_BLOCK, OF_OPENING, OF_REENCODING};
use crate::random::{Deck, Random};
use crate::samples::{limits, nudged, samples};
use ncw::{encode_pcm, PcmSpec, StereoMode};

pub struct Maker {
    random: Random,
    kinds: Deck<u8>,
    bits_words: Deck<i16>,
    modes: Deck<StereoMode>,
    channels: Deck<u16>,
    frames_to_decode: Deck<u32>,
    frames_to_reencode: Deck<usize>,
    in_files_to_open: Deck<Fault>,
    in_files_to_decode: Deck<Fault>,
    in_templates: Deck<Fault>,
    /// How many checks fail at once.
    opening: Deck<usize>,
    first_block: Deck<usize>,
    later_block: Deck<usize>,
    encoding: Deck<usize>,
    reencoding: Deck<usize>,
}

/// One case of so many is about the order of checks.
const ONE_ABOUT_ORDER: usize = 4;

impl Maker {
    pub fn new(seed: u64) -> Self {
        let bits_words: Vec<i16> = (-32..=32).collect();
        Maker {
            random: Random::new(seed),
            kinds: Deck::new(&[0, 0, 1, 1, 2, 2, 3, 3, 3]),
            bits_words: Deck::new(&bits_words),
            modes: Deck::new(&[StereoMode::Auto, StereoMode::Auto, StereoMode::Direct, StereoMode::MidSide]),
            channels: Deck::new(&[1, 1, 2, 2, 2, 3, 4, 5]),
            frames_to_decode: Deck::new(&[&[0, 512, 513][..], &[1, 2, 3, 5, 9, 17].repeat(2)].concat()),
            frames_to_reencode: Deck::new(&[&[0, 512, 513][..], &[1, 2, 3, 5, 9, 17].repeat(5)].concat()),
            in_files_to_open: Deck::new(IN_FILES_TO_OPEN),
            in_files_to_decode: Deck::new(IN_FILES_TO_DECODE),
            in_templates: Deck::new(IN_TEMPLATES),
            opening: Deck::up_to(OF_OPENING.len()),
            first_block: Deck::up_to(OF_FIRST_BLOCK.len()),
            later_block: Deck::up_to(OF_LATER_BLOCK.len()),
            encoding: Deck::up_to(OF_ENCODING.len()),
            reencoding: Deck::up_to(OF_REENCODING.len()),
        }
    }

    pub fn question(&mut self) -> Question {
        let order = self.random.once_in(ONE_ABOUT_ORDER);
        match self.kinds.draw(&mut self.random) {
            0 if order => self.order_of_opening(),
            0 => Question::Open(self.file_to_open()),
            1 if order && self.random.once_in(2) => self.order_at_a_first_block(),
            1 if order => self.order_at_a_later_block(),
            1 => Question::Decode(self.file_to_decode()),
            2 if order => self.order_of_encoding(),
            2 => self.encoding(),
            _ if order => self.order_of_reencoding(),
            _ => self.reencoding(),
        }
    }

    // ---- the order of checks

    fn order_of_opening(&mut self) -> Question {
        let channels = self.channels.draw(&mut self.random);
        let frames = self.random.pick(&[0, 1, 9, 513]);
        let n = self.opening.draw(&mut self.random);
        Question::Open(self.call_to_read(channels, frames, 0, 0).spoiled(OF_OPENING, n).file)
    }

    fn order_at_a_first_block(&mut self) -> Question {
        let channels = self.random.pick(&[1, 1, 3]);
        let n = self.first_block.draw(&mut self.random);
        Question::Decode(self.call_to_read(channels, 513, 1, 0).spoiled(OF_FIRST_BLOCK, n).file)
    }

    fn order_at_a_later_block(&mut self) -> Question {
        let channels = self.random.pick(&[2, 3]);
        let n = self.later_block.draw(&mut self.random);
        Question::Decode(self.call_to_read(channels, 3, 0, 1).spoiled(OF_LATER_BLOCK, n).file)
    }

    /// Blocks so wide that a byte less, or a block less, is not too little for opening.
    fn call_to_read(&mut self, channels: u16, frames: u32, group: usize, channel: usize) -> Call {
        let mut file = self.file(channels, frames, |maker| maker.random.between(4, 6) as i16);
        file.tail = self.random.bytes(20);
        Call::new(self.spec(), Vec::new(), &file, group, channel)
    }

    fn order_of_encoding(&mut self) -> Question {
        let call = self.call_to_write();
        let n = self.encoding.draw(&mut self.random);
        let call = call.spoiled(OF_ENCODING, n);
        Question::Encode(call.spec, StereoMode::MidSide, call.samples)
    }

    fn order_of_reencoding(&mut self) -> Question {
        let call = self.call_to_write();
        let n = self.reencoding.draw(&mut self.random);
        let call = call.spoiled(OF_REENCODING, n);
        Question::Reencode(call.spec, call.samples, call.file)
    }

    fn call_to_write(&mut self) -> Call {
        let spec = self.spec();
        let list = samples(spec, 4, &mut self.random);
        let mut file = self.template_file(spec, &list);
        file.tail = self.random.bytes(20);
        Call::new(spec, list, &file, 0, 0)
    }

    // ---- files to read

    fn file_to_open(&mut self) -> Vec<u8> {
        let channels = self.channels.draw(&mut self.random);
        let frames = self.random.pick(&[0, 0, 1, 7, 512, 513, 1025]);
        let file = self.file(channels, frames, |maker| maker.random.between(-2, 2) as i16);
        let faults = self.random.pick(&[0, 1, 1, 1, 2, 2]);
        self.damaged(&file, faults, |maker| maker.in_files_to_open.draw(&mut maker.random))
    }

    /// Without faults all bits words come round; with them the files are small.
    fn file_to_decode(&mut self) -> Vec<u8> {
        let channels = self.channels.draw(&mut self.random);
        let faults = self.random.pick(&[0, 0, 0, 0, 1, 1, 2, 2]);
        let frames = match faults {
            0 if channels <= 2 => self.frames_to_decode.draw(&mut self.random),
            _ => self.frames(channels),
        };
        let file = match faults {
            0 => self.file(channels, frames, |maker| maker.bits_words.draw(&mut maker.random)),
            _ => self.file(channels, frames, |maker| maker.random.between(-4, 4) as i16),
        };
        self.damaged(&file, faults, |maker| maker.in_files_to_decode.draw(&mut maker.random))
    }

    fn damaged(&mut self, file: &File, faults: usize, draw: fn(&mut Maker) -> Fault) -> Vec<u8> {
        let places = file.places();
        let mut bytes = file.bytes();
        for _ in 0..faults {
            draw(self).apply(&mut bytes, &places, &mut self.random);
        }
        bytes
    }

    fn file(&mut self, channels: u16, frames: u32, bits: fn(&mut Maker) -> i16) -> File {
        let depth = self.random.pick(&[8, 16, 24, 32]);
        let rate = self.random.pick(&[1, 44100, 48000, 0xFFFF_FFFF]);
        let float = self.random.once_in(3);
        let bits = if float && self.random.once_in(2) { |_: &mut Maker| -32 } else { bits };
        let mut file = File::new(channels, depth, rate, frames, &mut self.random);
        for _ in 0..frames.div_ceil(512) {
            let mid = channels == 2 && (float || self.random.once_in(2));
            let group = (0..channels).map(|c| self.block(c, depth, float, mid, bits)).collect();
            file.groups.push(group);
        }
        file
    }

    /// Few, since many take long; a whole group or two groups now and then.
    fn frames(&mut self, channels: u16) -> u32 {
        match self.random.below(40) {
            0 | 1 => 0,
            2 if channels <= 2 => self.random.pick(&[511, 512]),
            3 if channels <= 2 => self.random.pick(&[513, 514, 520]),
            _ => self.random.pick(&[1, 2, 3, 5, 9, 17]),
        }
    }

    /// Bit 0 decides in the first block alone, and the reader ignores the bits above bit 1.
    fn block(&mut self, channel: u16, depth: u16, float: bool, mid: bool, bits: fn(&mut Maker) -> i16) -> Block {
        let bits = bits(self);
        let r = &mut self.random;
        let low = if channel == 0 { u16::from(mid) } else { r.below(2) as u16 };
        let high = if r.once_in(4) { (r.next() as u16) << 2 } else { 0 };
        let width = if bits == 0 { depth } else { bits.unsigned_abs() };
        let (base, padding) = (r.signed(32), r.next() as u32);
        Block { base, bits, flags: low | u16::from(float) << 1 | high, padding, run: run(width, float, r) }
    }

    // ---- encoding

    fn encoding(&mut self) -> Question {
        let mode = self.modes.draw(&mut self.random);
        let mut spec = self.spec();
        let frames = self.frames(spec.channels) as usize;
        let mut list = samples(spec, frames, &mut self.random);
        for _ in 0..self.random.pick(&[0, 0, 0, 0, 0, 1, 2]) {
            self.spoil(&mut spec, &mut list);
        }
        Question::Encode(spec, mode, list)
    }

    fn spec(&mut self) -> PcmSpec {
        PcmSpec {
            channels: self.random.pick(&[1, 2, 2]),
            bits_per_sample: self.random.pick(&[16, 24]),
            sample_rate: self.random.pick(&[1, 44100, 0xFFFF_FFFF]),
        }
    }

    /// What is wrong with the call itself.
    fn spoil(&mut self, spec: &mut PcmSpec, list: &mut Vec<i32>) {
        let r = &mut self.random;
        match r.below(7) {
            0 => spec.channels = r.pick(&[0, 1, 2, 3, 65535]),
            1 => spec.bits_per_sample = r.pick(&[0, 8, 15, 16, 17, 24, 25, 32]),
            2 => spec.sample_rate = 0,
            3 | 4 => list.truncate(list.len().saturating_sub(1)),
            _ => outside(list, spec.bits_per_sample, r),
        }
    }

    // ---- re-encoding

    fn reencoding(&mut self) -> Question {
        let mut spec = self.spec();
        let frames = self.frames_to_reencode.draw(&mut self.random);
        let list = samples(spec, frames, &mut self.random);
        let template = match self.random.once_in(5) {
            true => self.encoded(spec, &list),
            false => self.template(spec, &list),
        };
        let mut list = self.varied(spec, list);
        if self.random.once_in(8) {
            self.spoil(&mut spec, &mut list);
        }
        Question::Reencode(spec, list, template)
    }

    /// Equal to the template's samples, near them, or others; whole groups, which are rare, stay equal and without faults.
    fn varied(&mut self, spec: PcmSpec, list: Vec<i32>) -> Vec<i32> {
        match self.random.below(4) {
            0 | 1 => list,
            _ if list.len() >= 512 => list,
            2 => nudged(&list, spec.bits_per_sample, &mut self.random),
            _ => samples(spec, list.len() / usize::from(spec.channels), &mut self.random),
        }
    }

    fn encoded(&mut self, spec: PcmSpec, list: &[i32]) -> Vec<u8> {
        let mode = self.random.pick(&[StereoMode::Auto, StereoMode::Direct]);
        encode_pcm(list, spec, mode).expect("samples within their depth")
    }

    fn template(&mut self, spec: PcmSpec, list: &[i32]) -> Vec<u8> {
        let file = self.template_file(spec, list);
        let faults = if list.len() >= 512 { 0 } else { self.random.pick(&[0, 0, 1, 1, 1, 2]) };
        self.damaged(&file, faults, |maker| maker.in_templates.draw(&mut maker.random))
    }

    fn template_file(&mut self, spec: PcmSpec, list: &[i32]) -> File {
        let frames = list.len() / usize::from(spec.channels);
        let mut file =
            File::new(spec.channels, spec.bits_per_sample, spec.sample_rate, frames as u32, &mut self.random);
        for part in list.chunks(512 * usize::from(spec.channels)) {
            let group = self.template_group(spec.channels, part);
            file.groups.push(group);
        }
        file
    }

    fn template_group(&mut self, channels: u16, part: &[i32]) -> Vec<Block> {
        let even = channels == 2 && part.chunks(2).all(|pair| (pair[0] ^ pair[1]) & 1 == 0);
        let mid = even && !self.random.once_in(3);
        let lists = match channels {
            1 => vec![part.to_vec()],
            _ if mid => vec![of_pairs(part, |l, r| (l + r) / 2), of_pairs(part, |l, r| (l - r) / 2)],
            _ => vec![of_pairs(part, |l, _| l), of_pairs(part, |_, r| r)],
        };
        let flags = [u16::from(mid), self.random.below(2) as u16];
        let block = |(list, flags): (&Vec<i32>, u16)| template_block(list, flags, &mut self.random);
        lists.iter().zip(flags).map(block).collect()
    }
}

fn of_pairs(part: &[i32], one: fn(i32, i32) -> i32) -> Vec<i32> {
    part.chunks(2).map(|pair| one(pair[0], pair[1])).collect()
}

/// A block that holds the values, at any width that can: raw or differences, with padded values of its own.
fn template_block(values: &[i32], flags: u16, random: &mut Random) -> Block {
    let raw = random.once_in(2);
    let least = if raw { width_of(values) } else { width_of(&steps(values)).max(2) };
    let width = if random.once_in(2) { least } else { random.between(least.into(), 32) as u32 };
    let quiet = values.len() < 512 && random.once_in(2);
    let bits = if raw { -(width as i16) } else { width as i16 };
    Block { flags, ..holding(values, bits, quiet, random) }
}

/// A packed run: anything, or patterns that are sensible as floats.
fn run(width: u16, float: bool, random: &mut Random) -> Vec<u8> {
    let bytes = 64 * usize::from(width);
    match random.below(6) {
        0 => vec![random.pick(&[0x00, 0xFF, 0x80, 0x7F]); bytes],
        1..=4 if float && width == 32 => (0..512).flat_map(|_| pattern(random).to_le_bytes()).collect(),
        _ => random.bytes(bytes),
    }
}

/// Floats of near exponents, so that sums are rounded; zeros, subnormals, the greatest, infinities and NaNs.
fn pattern(random: &mut Random) -> u32 {
    let sign = (random.next() as u32) & 0x8000_0000;
    let fraction = (random.next() as u32) >> 9;
    let exponent = random.between(120, 130) as u32;
    let edges = [0, 1, 0x007F_FFFF, 0x0080_0000, 0x7F7F_FFFF, 0x7F80_0000, 0x7F80_0001 | fraction, fraction];
    sign | if random.once_in(3) { random.pick(&edges) } else { exponent << 23 | fraction }
}

/// One value past the depth's limits, or at them.
fn outside(list: &mut [i32], depth: u16, random: &mut Random) {
    if list.is_empty() {
        return;
    }
    let (low, high) = limits(if depth == 24 { 24 } else { 16 });
    let at = random.below(list.len());
    list[at] = random.pick(&[low - 1, high + 1, low - 1, high + 1, low, high, i32::MIN, i32::MAX]);
}
