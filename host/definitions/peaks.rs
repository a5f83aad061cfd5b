//! Peaks beside a file, by document 02 alone: a summary written, read number by number, and compared with bytes that are held. Nothing here is the
//! Rust original's, and any bytes may be read. How a file decodes, or by which number that is refused, is given.

/// A file that decodes: its samples frame by frame, each frame's in the order of channels.
pub struct Decoded {
    pub frames: u32,
    pub channels: u16,
    pub is_float: bool,
    pub samples: Vec<i32>,
}

/// What a summary holds: the pairs of each group in order, within a group those of each channel.
#[derive(Debug, PartialEq)]
pub struct Summary {
    pub frames: u32,
    pub channels: u32,
    pub pairs: Vec<Pair>,
}

/// The smallest and the largest.
pub type Pair = (i32, i32);

/// The summary of a file, or the number of the refusal with room for so many bytes.
pub fn build(file: &Result<Decoded, u32>, room: u64) -> Result<Vec<u8>, u32> {
    let bytes = expected(file)?;
    refuse(50, room < bytes.len() as u64)?;
    Ok(bytes)
}

/// Whether the bytes are the summary of the file, or the number of the refusal.
pub fn check(bytes: &[u8], file: &Result<Decoded, u32>) -> Result<bool, u32> {
    Ok(expected(file)? == bytes)
}

fn expected(file: &Result<Decoded, u32>) -> Result<Vec<u8>, u32> {
    let file = file.as_ref().map_err(|number| *number)?;
    refuse(66, file.is_float)?;
    Ok(written(&summary(file)))
}

/// What the bytes of a summary hold, or the number of the refusal.
pub fn read(bytes: &[u8]) -> Result<Summary, u32> {
    let mut numbers = Numbers(bytes);
    let (frames, channels) = (numbers.next()?, numbers.next()?);
    refuse(10, channels == 0)?;
    let count = u64::from(frames).div_ceil(512) * u64::from(channels);
    let pairs = (0..count).map(|_| numbers.pair()).collect::<Result<_, _>>()?;
    refuse(63, !numbers.0.is_empty())?;
    Ok(Summary { frames, channels, pairs })
}

/// The pair of a group and a channel, or the number of the refusal with room for so many bytes.
pub fn read_pair(bytes: &[u8], group: u32, channel: u32, room: u64) -> Result<Pair, u32> {
    let summary = read(bytes)?;
    let pair = summary.pair(group, channel).ok_or(67_u32)?;
    refuse(50, room < 8)?;
    Ok(pair)
}

/// All pairs, or the number of the refusal with room for so many bytes.
pub fn read_pairs(bytes: &[u8], room: u64) -> Result<Vec<Pair>, u32> {
    let pairs = read(bytes)?.pairs;
    refuse(50, room < 8 * pairs.len() as u64)?;
    Ok(pairs)
}

impl Summary {
    pub fn groups(&self) -> u32 {
        self.frames.div_ceil(512)
    }

    /// None past the last group or channel.
    pub fn pair(&self, group: u32, channel: u32) -> Option<Pair> {
        let is_there = group < self.groups() && channel < self.channels;
        is_there.then(|| self.pairs[group as usize * self.channels as usize + channel as usize])
    }
}

fn refuse(number: u32, wrong: bool) -> Result<(), u32> {
    match wrong {
        true => Err(number),
        false => Ok(()),
    }
}

// ---- a file's peaks

/// Of a group of 512 frames, or fewer in the last, the smallest and the largest sample of each channel.
pub fn summary(file: &Decoded) -> Summary {
    let channels = usize::from(file.channels);
    let peak = |group: &[i32], channel: usize| {
        let mut samples: Vec<i32> = group.chunks(channels).map(|frame| frame[channel]).collect();
        samples.sort_unstable();
        (samples[0], samples[samples.len() - 1])
    };
    let groups = file.samples.chunks(512 * channels.max(1));
    let pairs = groups.flat_map(|group| (0..channels).map(move |channel| peak(group, channel))).collect();
    Summary { frames: file.frames, channels: channels as u32, pairs }
}

// ---- numbers

/// Its bytes.
pub fn written(summary: &Summary) -> Vec<u8> {
    let head = [summary.frames, summary.channels].map(u64::from);
    let pairs = summary.pairs.iter().flat_map(|pair| [folded(pair.0), folded(pair.1)]);
    head.into_iter().chain(pairs).flat_map(sevens).collect()
}

/// Groups of seven bits, low group first, high bit set on all but the last byte.
pub fn sevens(number: u64) -> Vec<u8> {
    match number {
        0..128 => vec![number as u8],
        _ => [vec![128 + (number % 128) as u8], sevens(number / 128)].concat(),
    }
}

/// A signed number as one without a sign.
pub fn folded(number: i32) -> u64 {
    match i64::from(number) {
        number @ 0.. => 2 * number as u64,
        number => (-2 * number - 1) as u64,
    }
}

fn unfolded(number: u32) -> i32 {
    let number = i64::from(number);
    match number % 2 {
        0 => (number / 2) as i32,
        _ => (-(number + 1) / 2) as i32,
    }
}

/// The bytes from the next number on.
struct Numbers<'a>(&'a [u8]);

impl Numbers<'_> {
    fn next(&mut self) -> Result<u32, u32> {
        let more = self.0.iter().take(4).take_while(|byte| **byte >= 128).count();
        refuse(60, self.0.len() <= more)?;
        let (number, rest) = self.0.split_at(more + 1);
        refuse(62, more == 4 && number[4] > 15)?;
        refuse(61, more > 0 && number[more] == 0)?;
        self.0 = rest;
        Ok(number.iter().rev().fold(0, |high, byte| 128 * high + u64::from(byte % 128)) as u32)
    }

    fn pair(&mut self) -> Result<Pair, u32> {
        let (smallest, largest) = (unfolded(self.next()?), unfolded(self.next()?));
        refuse(64, smallest > largest)?;
        Ok((smallest, largest))
    }
}

#[cfg(test)]
mod tests {
    use super::*;

    const LIMITS: [(u32, &[u8]); 10] = [
        (0, &[0]),
        (1, &[1]),
        (127, &[127]),
        (128, &[0x80, 1]),
        (16_383, &[0xFF, 0x7F]),
        (16_384, &[0x80, 0x80, 1]),
        (2_097_152, &[0x80, 0x80, 0x80, 1]),
        (268_435_455, &[0xFF, 0xFF, 0xFF, 0x7F]),
        (268_435_456, &[0x80, 0x80, 0x80, 0x80, 1]),
        (u32::MAX, &[0xFF, 0xFF, 0xFF, 0xFF, 15]),
    ];

    #[test]
    fn one_encoding() {
        for (number, bytes) in LIMITS {
            assert_eq!(sevens(number.into()), bytes);
            assert_eq!(Numbers(bytes).next(), Ok(number));
            assert_eq!(Numbers(&[bytes, &[9, 200]].concat()).next(), Ok(number), "with others behind it");
            for length in 0..bytes.len() {
                assert_eq!(Numbers(&bytes[..length]).next(), Err(60), "{number} cut");
            }
        }
        for (bytes, refusal) in [
            (&[0x80, 0][..], 61),
            (&[0xFF, 0xFF, 0xFF, 0], 61),
            (&[0x80, 0x80, 0x80, 0x80, 0], 61),
            (&[0x80, 0x80, 0x80, 0x80, 16], 62),
            (&[0x80, 0x80, 0x80, 0x80, 0x80], 62),
            (&[0xFF, 0xFF, 0xFF, 0xFF, 0xFF, 1], 62),
            (&[0xFF, 0xFF, 0xFF, 0xFF], 60),
        ] {
            assert_eq!(Numbers(bytes).next(), Err(refusal), "{bytes:?}");
        }
    }

    #[test]
    fn signed_numbers() {
        for (number, folds) in [(0, 0), (-1, 1), (1, 2), (-2, 3), (i32::MAX, u32::MAX - 1), (i32::MIN, u32::MAX)] {
            assert_eq!((folded(number), unfolded(folds)), (folds.into(), number));
        }
    }

    /// Stereo, 513 frames: in the second group there is one.
    fn stereo(is_float: bool) -> Result<Decoded, u32> {
        let samples = (0..513).flat_map(|k| [k - 100, 7 - 2 * k]).collect();
        Ok(Decoded { frames: 513, channels: 2, is_float, samples })
    }

    /// Frames, channels; −100 and 411, 7 − 1,022 and 7; 412 twice, 7 − 1,024 twice.
    const BYTES: [u8; 18] = [0x81, 4, 2, 199, 1, 0xB6, 6, 0xED, 15, 14, 0xB8, 6, 0xB8, 6, 0xF1, 15, 0xF1, 15];

    #[test]
    fn built_read_and_checked() {
        assert_eq!(build(&stereo(false), 18), Ok(BYTES.to_vec()));
        let pairs = vec![(-100, 411), (-1_015, 7), (412, 412), (-1_017, -1_017)];
        assert_eq!(read(&BYTES), Ok(Summary { frames: 513, channels: 2, pairs: pairs.clone() }));
        assert_eq!([(0, 0), (0, 1), (1, 0), (1, 1)].map(|(g, c)| read_pair(&BYTES, g, c, 8).unwrap()), pairs[..]);
        assert_eq!(check(&BYTES, &stereo(false)), Ok(true));
        assert_eq!(check(&BYTES[..17], &stereo(false)), Ok(false));
        assert_eq!(check(&[0x80, 0], &stereo(false)), Ok(false));
    }

    /// Decoding's first, 66, then 50; of reading 63 before 67 and 67 before 50.
    #[test]
    fn refusals_in_order() {
        assert_eq!([build(&Err(4), 0), build(&stereo(true), 0), build(&stereo(false), 17)], [4, 66, 50].map(Err));
        assert_eq!([check(&BYTES, &Err(22)), check(&BYTES, &stereo(true))], [22, 66].map(Err));
        for (group, channel) in [(0, 2), (0, 3), (2, 0), (u32::MAX, 0), (1, u32::MAX)] {
            assert_eq!(read_pair(&BYTES, group, channel, 0), Err(67), "{group}, {channel}");
            assert_eq!(read_pair(&[&BYTES[..], &[0]].concat(), group, channel, 0), Err(63));
        }
        assert_eq!([read_pair(&BYTES, 1, 1, 7), read_pair(&BYTES[..17], 1, 1, 7)], [50, 60].map(Err));
        assert_eq!([read_pairs(&BYTES, 31), read_pairs(&BYTES[..2], 31)], [50, 60].map(Err));
        for (bytes, refusal) in [
            (&[0x80][..], 60),
            (&[0x80, 0], 61),
            (&[1, 0], 10),
            (&[0, 0, 9], 10),
            (&[0, 0x80, 0], 61),
            (&[1, 1, 4, 2, 0x80], 64),
            (&[1, 1, 4, 0x80, 0, 0x80], 61),
            (&[1, 2, 2, 4, 4], 60),
            (&[1, 1, 2, 4, 4], 63),
            (&[0xFF, 0xFF, 0xFF, 0xFF, 15, 0xFF, 0xFF, 0xFF, 0xFF, 15, 2, 4], 60),
        ] {
            assert_eq!(read(bytes), Err(refusal), "{bytes:?}");
        }
        assert_eq!(
            read(&[0, 0xFF, 0xFF, 0xFF, 0xFF, 15]),
            Ok(Summary { frames: 0, channels: u32::MAX, pairs: vec![] })
        );
    }
}
