//! Chains of questions drawn from a seed, in which each question needs few bytes: samples are drawn, encoded, kept and read; the file is a template for
//! them and for others; then a few of its bytes are changed.
use crate::answers::{opening, words, writing, Told};
use crate::blocks::{file, flagged};
use crate::draw::{seed, Draw, Samples, SUMMED};
use crate::faults::{put, Fault, IN_FILES_TO_DECODE, IN_TEMPLATES};
use crate::files::{bits_words, Block, File, Places};
use crate::noisy::{noisy, noisy_at_depth, noisy_raw};
use crate::random::{Deck, Random};
use crate::samples::limits;
use crate::tape::{samples_in, Tape, MOST_SAMPLES, SPACE};
use ncw::PcmSpec;

const SEED: u64 = 20_261_117;

/// How many chains begin with samples, how many with a file, and how often each file is changed.
const ENCODED: usize = 260;
const LAID_OUT: usize = 260;
const CHANGES: usize = 8;
/// So many blocks of any width have space.
const MOST_BLOCKS: usize = 7;
/// How often a sample is changed and the list encoded again.
const EDITS: usize = 4;

pub fn all(tape: &mut Tape) {
    let mut chains = Chains {
        random: Random::new(SEED),
        frames: Deck::new(&FRAMES),
        kinds: Deck::new(&[0, 0, 1, 1, 2, 3, 3, 3, 3, 4, 5, 6]),
        bits_words: Deck::new(&(-32..=32).collect::<Vec<i16>>()),
        faults: Deck::new(&[IN_TEMPLATES, IN_FILES_TO_DECODE].concat()),
        ranges: Random::new(SEED + 1),
    };
    (0..ENCODED).for_each(|k| chains.encoded(k, tape));
    (0..LAID_OUT).for_each(|k| chains.laid_out(k, tape));
}

#[rustfmt::skip]
const FRAMES: [usize; 30] = [
    0, 1, 1, 2, 2, 3, 3, 4, 5, 7, 9, 12, 17, 24, 33, 40, 60, 100, 150, 200, 300, 400, 511, 512, 513, 514, 600, 1024, 1025, 1300,
];

struct Chains {
    random: Random,
    frames: Deck<usize>,
    kinds: Deck<u8>,
    bits_words: Deck<i16>,
    faults: Deck<Fault>,
    /// A draw of its own, which the others do not depend on.
    ranges: Random,
}

impl Chains {
    // ---- samples first

    fn encoded(&mut self, k: usize, tape: &mut Tape) {
        let (spec, frames) = (self.spec(), self.frames.draw(&mut self.random));
        let (channels, depth) = (spec.channels, spec.bits_per_sample);
        tape.case(format!("chain {k} of samples: channels {channels}, depth {depth}, frames {frames}"));
        let count = frames * usize::from(channels);
        tape.settings(spec);
        tape.samples(self.samples(depth, count));
        self.edit(depth, tape);
        if self.encode(spec, tape) {
            tape.keep_written();
            self.read(tape);
            self.rewrite_own(tape);
            self.spoil(spec, tape);
            self.rewrite_others(spec, count, tape);
            let good = tape.file_bytes().to_vec();
            self.change(&good, &places_of(&good), true, tape);
        }
        (0..EDITS).for_each(|_| self.encode_edited(spec, tape));
    }

    fn spec(&mut self) -> PcmSpec {
        PcmSpec {
            channels: self.random.pick(&[1, 2, 2]),
            bits_per_sample: self.random.pick(&[16, 24]),
            sample_rate: self.random.pick(&[1, 44_100, 48_000, 0xFFFF_FFFF]),
        }
    }

    /// Noise of every width, of one parity, steps, constants, at the depth's limits, and one beyond them.
    fn samples(&mut self, depth: u16, count: usize) -> Samples {
        let r = &mut self.random;
        let ((low, high), bits) = (limits(depth), r.between(1, i64::from(depth) - 1) as u32);
        let few = (bits / 2).max(1);
        let within = |low: i32, range: u32, r: &mut Random| Draw { seed: seed(r), low: low as u32, range, style: 0 };
        let draw = match self.kinds.draw(r) {
            0 => Draw::signed(bits + 1, r),
            1 => Draw::signed(bits, r).doubled(),
            2 => Draw { style: SUMMED, ..Draw::signed(few, r) },
            3 => {
                let steps = Draw::signed(few, r).doubled();
                Draw { style: steps.style | SUMMED, ..steps }
            }
            4 => Draw::constant(r.pick(&[low, high, 0, 5, -1, low - 1, high + 1]) as u32),
            5 => within(r.pick(&[low, high - 3, high - 4]), 4, r),
            _ => within(r.pick(&[low - 1, high - 2]), r.pick(&[2, 3, 4]), r),
        };
        Samples::Drawn(draw, count)
    }

    /// One sample of its own, now and then.
    fn edit(&mut self, depth: u16, tape: &mut Tape) {
        let mut samples = words(tape.sample_bytes());
        if samples.is_empty() || self.random.once_in(2) {
            return;
        }
        let ((low, high), any) = (limits(depth), self.random.below(samples.len()));
        let at = self.random.pick(&[0, samples.len() - 1, any]);
        samples[at] = self.random.pick(&[low, high, 0, samples[at] ^ 1, samples[at] ^ 2, samples[at] ^ 64]);
        tape.samples(samples);
    }

    /// In the three modes, the last one accepted again if that can be: whether it was.
    fn encode(&mut self, spec: PcmSpec, tape: &mut Tape) -> bool {
        let first = self.random.below(3);
        let mut last = None;
        for mode in (0..3).map(|k| (first + k) as u32 % 3) {
            let (told, file) = writing(spec, mode, tape.sample_bytes(), SPACE);
            let length = file.len();
            let rooms = [length, length, length + 4, length + 12, length.saturating_sub(4), 0];
            let room = self.random.pick(&rooms).min(SPACE);
            if told.accepted() {
                tape.encode(mode, length.saturating_sub(self.random.pick(&[1, 4, length])));
                last = Some((mode, length));
            }
            tape.encode(mode, room);
        }
        last.is_some_and(|(mode, length)| tape.encode(mode, length))
    }

    fn encode_edited(&mut self, spec: PcmSpec, tape: &mut Tape) {
        self.edit(spec.bits_per_sample, tape);
        let mode = self.random.below(3) as u32;
        let length = writing(spec, mode, tape.sample_bytes(), SPACE).1.len();
        tape.encode(mode, length.min(SPACE));
    }

    /// One thing wrong with a call, or two: settings (some for re-encoding alone), an incomplete frame, an incomplete sample, the mode.
    fn spoil(&mut self, spec: PcmSpec, tape: &mut Tape) {
        let (length, r) = (tape.sample_bytes().len(), &mut self.random);
        let settings = r.pick(&[(0, 16, 1), (3, 24, 1), (2, 8, 1), (1, 32, 1), (2, 16, 0), (1, 17, 1)]);
        let [wrong, shorter, mode] = [3, 2, 4].map(|n| r.once_in(n));
        if wrong {
            let (channels, bits_per_sample, sample_rate) = settings;
            tape.settings(PcmSpec { channels, bits_per_sample, sample_rate });
        }
        if shorter {
            tape.samples_length(length.saturating_sub(r.pick(&[1, 2, 3, 4, 4, 4])));
        }
        let mode = if mode { r.pick(&[3, 4, 256, 0xFFFF_FFFF]) } else { r.below(3) as u32 };
        let room = tape.file_bytes().len();
        if wrong || shorter || mode > 2 {
            tape.encode(mode, room);
            tape.reencode(room);
        }
        tape.settings(spec);
        tape.samples_length(length);
    }

    // ---- a file first

    fn laid_out(&mut self, k: usize, tape: &mut Tape) {
        let tame = self.random.once_in(2);
        let (channels, depth) = match tame {
            true => (self.random.pick(&[1, 2]), self.random.pick(&[16, 24])),
            false => (self.random.pick(&[1, 2, 2, 2, 3, 4, 5]), self.random.pick(&[8, 16, 24, 32])),
        };
        let frames = self.frames.draw(&mut self.random).min(512 * (MOST_BLOCKS / usize::from(channels)));
        let float = !tame && self.random.once_in(3);
        tape.case(format!("chain {k} of a file: channels {channels}, depth {depth}, frames {frames}, float {float}"));
        let laid_out = self.file(channels, depth, frames as u32, tame, float);
        let good = laid_out.bytes();
        tape.file(&good);
        tape.settings(PcmSpec { channels, bits_per_sample: depth, sample_rate: laid_out.rate });
        self.read(tape);
        if k % 4 == 0 {
            self.frames(tape);
        }
        if tape.decode(samples_in(&good)) {
            tape.keep_read();
            self.rewrite_own(tape);
        }
        let rewrite = tame || self.random.once_in(6);
        self.change(&good, &laid_out.places(), rewrite, tape);
        if k % 4 == 2 {
            self.frames(tape);
        }
    }

    fn file(&mut self, channels: u16, depth: u16, frames: u32, tame: bool, float: bool) -> File {
        let mut group = |_| {
            let mid = channels == 2 && self.random.once_in(2);
            (0..channels).map(|channel| self.block(channel, depth, mid, tame, float)).collect()
        };
        let groups = (0..frames.div_ceil(512)).map(&mut group).collect();
        let plain = file(channels, depth, frames, groups);
        let (gap, tail) = self.random.pick(&[(0, 0), (0, 0), (0, 0), (1, 3), (8, 0), (0, 20)]);
        let [gap, tail] = [gap, tail].map(|count| self.random.bytes(count));
        File {
            mark: self.random.pick(&[0x31, 0x30]),
            rate: self.random.pick(&[1, 44_100, 0xFFFF_FFFF]),
            gap,
            tail,
            ..plain
        }
    }

    /// A tame one has samples within the depth, for most of its widths. Bit 0 decides in the first block alone.
    fn block(&mut self, channel: u16, depth: u16, mid: bool, tame: bool, float: bool) -> Block {
        let r = &mut self.random;
        let most = i64::from(depth) - 2;
        let bits = match self.bits_words.draw(r) {
            0 if tame => -1,
            bits if tame && bits > 0 => (1 + bits) % (most / 2) as i16 + 2,
            bits if tame => -1 - (-bits) % most as i16,
            bits => bits,
        };
        let low = if channel == 0 { u16::from(mid) } else { r.below(2) as u16 };
        let high = if !tame && r.once_in(3) { (r.next() as u16) << 2 } else { 0 };
        let block = match bits {
            0 => noisy_at_depth(depth, r),
            1..=32 => noisy(bits as u32, r),
            _ => noisy_raw(bits.unsigned_abs().into(), r),
        };
        let base = if tame { r.signed(10) } else { r.signed(32) };
        let padding = if r.once_in(4) { r.next() as u32 } else { 0 };
        flagged(low | u16::from(float) << 1 | high, Block { base, padding, ..block })
    }

    // ---- what is asked of a file

    /// Opened, decoded in exact room and in some other, and walked over.
    fn read(&mut self, tape: &mut Tape) {
        tape.open();
        let whole = samples_in(tape.file_bytes());
        tape.decode(whole);
        tape.decode(self.room(whole));
        let channels = channels_of(tape.file_bytes());
        let mut at = 0;
        while tape.step(at, (512 * channels).min(whole.saturating_sub(at as usize * 512 * channels))) != at {
            at += 1;
        }
        let again = self.random.below(at as usize + 1) as u32;
        tape.step(again, self.room(512 * channels));
    }

    /// Any frames, now and then one past the end, in exact room and in some other.
    fn frames(&mut self, tape: &mut Tape) {
        let (channels, frames) = match opening(tape.file_bytes()) {
            Told::Opened(numbers) => (numbers[0] as usize, numbers[3] as usize),
            _ => (0, 0),
        };
        let r = &mut self.ranges;
        let first = r.below(frames + 1);
        let count = r.below(frames - first + 2);
        let exact = channels * count;
        let room = r.pick(&[exact, exact, exact + 3, exact.saturating_sub(1)]);
        tape.frames(first as u32, count as u32, room.min(MOST_SAMPLES));
    }

    /// Other room than that: one less, one more, none, a few more.
    fn room(&mut self, exact: usize) -> usize {
        self.random.pick(&[exact.saturating_sub(1), exact.saturating_sub(1), exact + 1, exact + 3, 0]).min(MOST_SAMPLES)
    }

    /// With the samples that stand there: room for all of it, for a word more, or too little.
    fn rewrite_own(&mut self, tape: &mut Tape) {
        let length = tape.file_bytes().len();
        if length % 4 == 0 {
            let short = self.random.pick(&[1, 4, length]);
            tape.reencode(length - short);
            tape.reencode((length + self.random.pick(&[0, 4])).min(SPACE));
        }
    }

    /// With samples near the old ones, and with others: what is accepted is read and kept.
    fn rewrite_others(&mut self, spec: PcmSpec, count: usize, tape: &mut Tape) {
        self.edit(spec.bits_per_sample, tape);
        self.rewrite(tape);
        tape.samples(self.samples(spec.bits_per_sample, count));
        self.rewrite(tape);
    }

    fn rewrite(&mut self, tape: &mut Tape) {
        if tape.reencode(tape.file_bytes().len()) {
            tape.keep_written();
            tape.decode(samples_in(tape.file_bytes()));
        }
    }

    // ---- a few bytes changed

    fn change(&mut self, good: &[u8], places: &Places, rewrite: bool, tape: &mut Tape) {
        for _ in 0..CHANGES {
            let changed = self.changed(good, places);
            if changed.len() <= SPACE {
                tape.file(&changed);
                self.ask(places.blocks.len(), rewrite, tape);
            }
        }
    }

    /// One fault or two, or one byte.
    fn changed(&mut self, good: &[u8], places: &Places) -> Vec<u8> {
        let mut bytes = good.to_vec();
        if self.random.once_in(4) {
            self.set_a_byte(&mut bytes, places);
            return bytes;
        }
        for _ in 0..self.random.pick(&[1, 1, 2]) {
            self.faults.draw(&mut self.random).apply(&mut bytes, places, &mut self.random);
        }
        bytes
    }

    /// Of header, table or a block's header.
    fn set_a_byte(&mut self, bytes: &mut [u8], places: &Places) {
        let r = &mut self.random;
        let header = [r.below(32), places.table + r.below(places.start - places.table)];
        let within = r.below(16);
        let blocks = places.blocks.iter().flatten().map(|at| at + within);
        let at = r.pick(&header.into_iter().chain(blocks).collect::<Vec<_>>());
        let value = r.pick(&[0, 1, 2, 0x7F, 0x80, 0xFF, u64::from(bytes[at]) ^ 1]);
        put(bytes, at, 1, value);
    }

    fn ask(&mut self, groups: usize, rewrite: bool, tape: &mut Tape) {
        let file = tape.file_bytes().to_vec();
        tape.open();
        let whole = samples_in(&file);
        let room = if self.random.once_in(6) { self.room(whole) } else { whole.max(2) };
        tape.decode(room);
        let group = if self.random.once_in(8) { groups } else { self.random.below(groups.max(1)) };
        tape.step(group as u32, room.min(512 * channels_of(&file)).max(2));
        if rewrite && file.len() % 4 == 0 {
            tape.reencode((file.len() + self.random.pick(&[0, 0, 4])).min(SPACE));
        }
    }
}

fn channels_of(file: &[u8]) -> usize {
    match opening(file) {
        Told::Opened(numbers) => numbers[0] as usize,
        _ => 0,
    }
}

/// Where the parts of a good file are.
fn places_of(file: &[u8]) -> Places {
    let number = |at: usize| u32::from_le_bytes([file[at], file[at + 1], file[at + 2], file[at + 3]]);
    let [table, start, size] = [20, 24, 28].map(|at| number(at) as usize);
    let channels = usize::from(file[8]);
    let mut at = start;
    let mut step = |bits: &i16| {
        at += 16 + 64 * usize::from(bits.unsigned_abs());
        at - 16 - 64 * usize::from(bits.unsigned_abs())
    };
    let blocks: Vec<usize> = bits_words(file).iter().map(&mut step).collect();
    let blocks = blocks.chunks(channels).map(<[usize]>::to_vec).collect();
    Places { table, start, size, frames: number(16), channels, blocks }
}
