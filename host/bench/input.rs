//! A row's samples, and the file that the original makes of them or of others. They depend on nothing but the row.
use crate::files::bits_words;
use crate::random::Random;
use crate::rows::{Form, Row, Width};
use ncw::{encode_pcm, PcmSpec, StereoMode, SAMPLES_PER_BLOCK};

pub const RATE: u32 = 44_100;
pub const SEED: u64 = 1;

/// The width of side where it is narrow.
const NARROW: i16 = 2;

pub struct Input {
    pub samples: Vec<i32>,
    pub spec: PcmSpec,
    pub mode: StereoMode,
    /// Of the samples; where they are re-encoded it is the template, of others.
    pub file: Vec<u8>,
}

impl Input {
    pub fn of(row: &Row) -> Self {
        let samples = samples(row);
        let spec = PcmSpec { channels: row.form.channels(), bits_per_sample: row.depth, sample_rate: RATE };
        let mode = row.form.mode();
        let file = encode_pcm(&samples, spec, mode).expect("the samples can be encoded");
        assert!(has_widths(row, &file), "every block has the row's width: {row:?}");
        assert!(has_form(row, &file), "every group has the row's form: {row:?}");
        Input { samples, spec, mode, file }
    }

    /// The row's file as a template, with samples that are not its own: in each group the same frames, the last first.
    /// So what is coded differs, and fits the same widths.
    pub fn to_reencode(row: &Row) -> Self {
        let input = Input::of(row);
        let samples = backwards(row.form.channels().into(), &input.samples);
        assert!(samples != input.samples, "the samples are not the template's own: {row:?}");
        Input { samples, ..input }
    }

    /// The settings in the drop-in's type.
    pub fn our_spec(&self) -> ours::PcmSpec {
        let PcmSpec { channels, bits_per_sample, sample_rate } = self.spec;
        ours::PcmSpec { channels, bits_per_sample, sample_rate }
    }
}

fn backwards(channels: usize, samples: &[i32]) -> Vec<i32> {
    let groups = samples.chunks(SAMPLES_PER_BLOCK * channels);
    groups.flat_map(|group| group.chunks(channels).rev().flatten().copied()).collect()
}

fn has_widths(row: &Row, file: &[u8]) -> bool {
    let Width::Bits(bits) = row.width else { return true };
    let word = if bits < row.depth.into() { bits as i16 } else { -(bits as i16) };
    let words = if row.form == Form::AutoMidSide { [word, NARROW] } else { [word; 2] };
    bits_words(file).iter().zip(words.iter().cycle()).all(|(found, word)| found == word)
}

/// By the flags of each group's first block.
fn has_form(row: &Row, file: &[u8]) -> bool {
    let number = |at: usize| u32::from_le_bytes([file[at], file[at + 1], file[at + 2], file[at + 3]]) as usize;
    let (table, start) = (number(20), number(24));
    let mut groups = (table..start - 4).step_by(4);
    groups.all(|entry| file[start + number(entry) + 10] == u8::from(row.form.is_mid_side()))
}

fn samples(row: &Row) -> Vec<i32> {
    let mut random = Random::new(SEED);
    let mut bits = 0;
    let mut frame = |k: usize| {
        if k % SAMPLES_PER_BLOCK == 0 {
            bits = match row.width {
                Width::Bits(bits) => bits,
                Width::Mixed => random.between(2, row.depth.into()) as u32,
            };
        }
        frame_of(row, bits, &mut random)
    };
    (0..row.seconds * RATE as usize).flat_map(|k| frame(k).into_iter().take(row.form.channels().into())).collect()
}

/// A frame of a group whose differences take so many bits, of mid and side where they are what is coded.
fn frame_of(row: &Row, bits: u32, random: &mut Random) -> Vec<i32> {
    let raw = bits == row.depth.into();
    let mut sample = || match raw {
        true => random.signed(bits),
        false => random.below(1 << (bits - 1)) as i32,
    };
    match row.form {
        Form::Eight => (0..8).map(|_| sample()).collect(),
        form => pair_of(form, row.depth, raw, [sample(), sample()]).into(),
    }
}

fn pair_of(form: Form, depth: u16, raw: bool, [first, second]: [i32; 2]) -> [i32; 2] {
    let even = [first, second & !1 | first & 1];
    match form {
        Form::AutoMidSide => beside(first, second & 1, depth),
        Form::AutoDirect => even,
        Form::AutoOdd => [first, second],
        Form::MidSide if !raw => [first + second, first - second],
        _ if raw => even,
        _ => [first, second],
    }
}

/// Left and right of a mid within the depth and a side of 0 or 1.
fn beside(mid: i32, side: i32, depth: u16) -> [i32; 2] {
    let most = (1 << (depth - 1)) - 2;
    let mid = mid.clamp(-most, most);
    [mid + side, mid - side]
}
