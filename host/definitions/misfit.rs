//! Where 36 is: the first value or difference that doesn't fit its block's width, by documents 01 and 02 alone. Nothing here is the Rust original's.

/// The first, by group, channel and place.
#[derive(Clone, Copy, PartialEq, Eq, Debug)]
pub struct Misfit {
    pub group: usize,
    pub channel: usize,
    /// Its index in the packed run, from 0: of differences k is from sample k to sample k + 1.
    pub place: usize,
    pub of: Of,
}

#[derive(Clone, Copy, PartialEq, Eq, PartialOrd, Ord, Debug)]
pub enum Of {
    RawValue,
    /// Between two of the samples.
    Difference,
    /// From the last sample to the template's first padded one.
    ToPadded,
}

/// Asked of a call that is refused by 36 or accepted: all that is checked before holds, up to the misfit. What lies behind it is not looked at.
pub fn first_misfit(samples: &[i32], channels: usize, template: &[u8]) -> Option<Misfit> {
    let mut groups = samples.chunks(512 * channels).enumerate();
    groups.find_map(|(group, samples)| in_group(group, samples, channels, template))
}

/// The place in one block, which begins at `at` and is there whole; `samples` are those of its group.
pub fn in_block(
    samples: &[i32],
    channels: usize,
    channel: usize,
    mid_side: bool,
    template: &[u8],
    at: usize,
) -> Option<usize> {
    Block::at(template, at).misfit(&stored(samples, channels, channel, mid_side))
}

fn in_group(group: usize, samples: &[i32], channels: usize, template: &[u8]) -> Option<Misfit> {
    let entry = number(template, number(template, 20, 4) + 4 * group, 4);
    let start = number(template, 24, 4) + entry;
    let mid_side = number(template, start + 10, 2) & 1 == 1;
    let in_channel = |channel: usize| {
        let block = Block::behind(template, start, channel);
        let values = stored(samples, channels, channel, mid_side);
        let place = block.misfit(&values)?;
        Some(Misfit { group, channel, place, of: block.kind(place, values.len()) })
    };
    (0..channels).find_map(in_channel)
}

/// A number of so many bytes, the lowest first.
fn number(bytes: &[u8], at: usize, count: usize) -> usize {
    bytes[at..at + count].iter().rev().fold(0, |number, byte| 256 * number + usize::from(*byte))
}

/// What a block has to hold of the active frames: the channel's own samples, or mid = (l + r)/2 or side = (l − r)/2.
fn stored(samples: &[i32], channels: usize, channel: usize, mid_side: bool) -> Vec<i64> {
    let value = |frame: &[i32]| match (mid_side, channel) {
        (false, _) => i64::from(frame[channel]),
        (true, 0) => (i64::from(frame[0]) + i64::from(frame[1])) / 2,
        (true, _) => (i64::from(frame[0]) - i64::from(frame[1])) / 2,
    };
    samples.chunks_exact(channels).map(value).collect()
}

/// A block of the template.
struct Block<'a> {
    base: i64,
    /// Differences at that width, or raw at the width without the sign.
    bits: i16,
    run: &'a [u8],
}

impl<'a> Block<'a> {
    fn at(template: &'a [u8], at: usize) -> Self {
        let base = i64::from(number(template, at + 4, 4) as u32 as i32);
        let bits = number(template, at + 8, 2) as u16 as i16;
        let run = &template[at + 16..][..64 * usize::from(bits.unsigned_abs())];
        Block { base, bits, run }
    }

    /// The block with so many before it from `start` on.
    fn behind(template: &'a [u8], start: usize, blocks: usize) -> Self {
        let at = (0..blocks).fold(start, |at, _| at + 16 + Block::at(template, at).run.len());
        Block::at(template, at)
    }

    fn width(&self) -> usize {
        self.bits.unsigned_abs().into()
    }

    fn misfit(&self, values: &[i64]) -> Option<usize> {
        self.determined(values).iter().position(|value| !self.holds(*value))
    }

    /// The width has 2^(b−1) codes for what is not negative, and as many for what is.
    fn holds(&self, value: i64) -> bool {
        let half = 1 << (self.width() - 1);
        -half <= value && value < half
    }

    /// What the values determine of the run, from its beginning on. All behind it stays, and fits.
    fn determined(&self, values: &[i64]) -> Vec<i64> {
        if self.bits < 0 {
            return values.to_vec();
        }
        let after = values.iter().copied().skip(1).chain(self.padded(values.len()));
        values.iter().zip(after).map(|(value, next)| wrapped(next - value)).collect()
    }

    /// The template's own sample behind so many, where a block has one more: the base, and the differences up to there.
    fn padded(&self, active: usize) -> Option<i64> {
        (active < 512).then(|| wrapped(self.base + (0..active).map(|k| self.packed(k)).sum::<i64>()))
    }

    /// The packed value at a place, least significant bit first.
    fn packed(&self, place: usize) -> i64 {
        let (width, first) = (self.width(), place * self.width());
        let bit = |at: usize| i64::from(self.run[at / 8] >> (at % 8) & 1);
        let code = (0..width).map(|k| bit(first + k) << k).sum::<i64>();
        if code < 1 << (width - 1) {
            code
        } else {
            code - (1 << width)
        }
    }

    fn kind(&self, place: usize, active: usize) -> Of {
        match place + 1 == active {
            _ if self.bits < 0 => Of::RawValue,
            false => Of::Difference,
            true => Of::ToPadded,
        }
    }
}

/// At 32 bits.
fn wrapped(number: i64) -> i64 {
    i64::from(number as i32)
}
