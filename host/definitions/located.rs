//! What is refused and where, by documents 01 and 02 alone: the order of checks from its beginning on, each check as plain as it can be. Nothing here
//! is the Rust original's. Any bytes may be asked about; numbers of a file are held in 64 bits, so that no sum of them is too large.
use crate::misfit;

/// Document 01's number, and where it was found.
#[derive(Clone, Copy, PartialEq, Eq, Debug)]
pub struct Refused {
    pub number: u32,
    /// The bits word of 4 as 16 bits, the place of 36, and 0 otherwise.
    pub told: u16,
    /// Group and channel are 0 where the refusal concerns none.
    pub group: u32,
    pub channel: u16,
}

/// The mode of the host boundary in which every group is mid/side.
const MID_SIDE: u32 = 2;

pub fn opening(file: &[u8]) -> Option<Refused> {
    opened(file).err()
}

/// Without 50.
pub fn decoding(file: &[u8]) -> Option<Refused> {
    let opened = match opened(file) {
        Ok(opened) => opened,
        Err(refused) => return Some(refused),
    };
    (0..opened.groups()).find_map(|group| opened.group(group).err())
}

/// Without 50. Nothing where the group is read, and where there is none of this number.
pub fn step(file: &[u8], group: u32) -> Option<Refused> {
    match opened(file) {
        Ok(opened) if u64::from(group) < opened.groups() => opened.group(group.into()).err(),
        Ok(_) => None,
        Err(refused) => Some(refused),
    }
}

/// 30 to 35. Modes that are unknown are taken as Auto: 38 comes before, and is not here.
pub fn encoding(samples: &[i32], channels: u16, depth: u16, rate: u32, mode: u32) -> Option<Refused> {
    encoded(samples, channels, depth, rate, mode).err()
}

/// Without 39 and 50.
pub fn reencoding(samples: &[i32], channels: u16, depth: u16, rate: u32, template: &[u8]) -> Option<Refused> {
    reencoded(samples, channels, depth, rate, template).err()
}

// ---- refusing

type Checked<T = ()> = Result<T, Refused>;

/// A group, or a channel in it.
#[derive(Clone, Copy)]
struct Place {
    group: u64,
    channel: u64,
}

/// What concerns no group.
const NOWHERE: Place = Place { group: 0, channel: 0 };

impl Place {
    /// A group and none of its channels.
    fn of_group(group: u64) -> Self {
        Place { group, channel: 0 }
    }

    fn refuse(self, number: u32, wrong: bool) -> Checked {
        self.tell(number, 0, wrong)
    }

    fn tell(self, number: u32, told: u16, wrong: bool) -> Checked {
        match wrong {
            true => Err(Refused { number, told, group: self.group as u32, channel: self.channel as u16 }),
            false => Ok(()),
        }
    }
}

// ---- the file

/// A number of so many bytes, the lowest first.
pub fn number(bytes: &[u8], at: u64, count: usize) -> u64 {
    bytes[at as usize..][..count].iter().rev().fold(0, |number, byte| 256 * number + u64::from(*byte))
}

fn has_signature(file: &[u8]) -> bool {
    [0x31, 0x30].iter().any(|mark| file[..8] == [0x01, 0xA8, 0x9E, 0xD6, *mark, 0x01, 0x00, 0x00])
}

/// A file of 120 bytes or more, by its header's numbers.
struct File<'a> {
    bytes: &'a [u8],
    channels: u64,
    depth: u64,
    rate: u64,
    frames: u64,
    table: u64,
    data: u64,
    size: u64,
}

impl<'a> File<'a> {
    /// The checks that opening and re-encoding begin with.
    fn of(bytes: &'a [u8]) -> Checked<Self> {
        NOWHERE.refuse(1, bytes.len() < 120)?;
        NOWHERE.refuse(2, !has_signature(bytes))?;
        let [channels, depth] = [8, 10].map(|at| number(bytes, at, 2));
        let [rate, frames, table, data, size] = [12, 16, 20, 24, 28].map(|at| number(bytes, at, 4));
        Ok(File { bytes, channels, depth, rate, frames, table, data, size })
    }

    fn groups(&self) -> u64 {
        self.frames.div_ceil(512)
    }

    fn has_table_length(&self) -> bool {
        self.data - self.table == 4 * (self.groups() + 1)
    }

    fn ends_too_soon(&self) -> bool {
        self.data + self.size > self.bytes.len() as u64
    }

    /// Entry 0 to `groups`, once it is known that the table is there.
    fn entry(&self, k: u64) -> u64 {
        number(self.bytes, self.table + 4 * k, 4)
    }

    fn begin(&self, group: u64) -> u64 {
        self.data + self.entry(group)
    }

    fn end(&self, group: u64) -> u64 {
        self.data + self.entry(group + 1)
    }

    fn flags(&self, block: u64) -> u64 {
        number(self.bytes, block + 10, 2)
    }

    fn has_block_signature(&self, block: u64) -> bool {
        self.bytes[block as usize..][..4] == [0x16, 0x0C, 0x9A, 0x3E]
    }

    fn bits(&self, block: u64) -> i16 {
        number(self.bytes, block + 8, 2) as u16 as i16
    }

    /// 4, then 1 for the values: where the block ends.
    fn end_of_block(&self, place: Place, block: u64, end: u64) -> Checked<u64> {
        let bits = self.bits(block);
        place.tell(4, bits as u16, !(-32..=32).contains(&bits))?;
        let width = if bits == 0 { self.depth } else { bits.unsigned_abs().into() };
        let behind = block + 16 + 64 * width;
        place.refuse(1, behind > end)?;
        Ok(behind)
    }
}

// ---- opening and decoding

/// The file, once all of opening's checks are passed.
fn opened(bytes: &[u8]) -> Checked<File<'_>> {
    let file = File::of(bytes)?;
    NOWHERE.refuse(10, file.channels == 0)?;
    NOWHERE.refuse(11, ![8, 16, 24, 32].contains(&file.depth))?;
    NOWHERE.refuse(12, file.rate == 0)?;
    NOWHERE.refuse(13, file.table < 120)?;
    NOWHERE.refuse(14, file.data < file.table)?;
    NOWHERE.refuse(15, !file.has_table_length())?;
    NOWHERE.refuse(1, file.ends_too_soon())?;
    NOWHERE.refuse(16, file.entry(file.groups()) != file.size)?;
    if file.groups() == 0 {
        NOWHERE.refuse(17, file.size != 0)?;
        return Ok(file);
    }
    NOWHERE.refuse(18, file.entry(0) != 0)?;
    (0..file.groups()).try_for_each(|group| file.entries(group))?;
    Place { group: 0, channel: 0 }.refuse(3, !file.has_block_signature(file.begin(0)))?;
    Ok(file)
}

impl File<'_> {
    /// 19 of one group: its entry, and the next one as its end.
    fn entries(&self, group: u64) -> Checked {
        let (start, end) = (self.entry(group), self.entry(group + 1));
        let wrong = end > self.size || end < start || end - start < 80 * self.channels;
        Place::of_group(group).refuse(19, wrong)
    }

    /// One group of a file that opens.
    fn group(&self, group: u64) -> Checked {
        let (mut at, end) = (self.begin(group), self.end(group));
        for channel in 0..self.channels {
            at = self.block(Place { group, channel }, at, end)?;
        }
        Place::of_group(group).refuse(22, at != end)
    }

    /// One block: where it ends.
    fn block(&self, place: Place, at: u64, end: u64) -> Checked<u64> {
        place.refuse(1, at + 16 > end)?;
        place.refuse(3, !self.has_block_signature(at))?;
        let flags = self.flags(at);
        place.refuse(20, flags & 2 != self.flags(self.begin(0)) & 2)?;
        place.refuse(21, place.channel == 0 && flags & 1 == 1 && self.channels != 2)?;
        self.end_of_block(place, at, end)
    }
}

// ---- encoding

/// The most channels that a writer takes, and the depths.
type Limits = (u16, &'static [u16]);

const ENCODER: Limits = (8, &[8, 16, 24, 32]);
const REENCODER: Limits = (2, &[16, 24]);

/// 30 to 33, which both writers begin with.
fn accepted((most, depths): Limits, samples: &[i32], channels: u16, depth: u16, rate: u32) -> Checked {
    let settings = (1..=most).contains(&channels) && depths.contains(&depth) && rate != 0;
    NOWHERE.refuse(30, !settings)?;
    NOWHERE.refuse(31, samples.len() % usize::from(channels) != 0)?;
    NOWHERE.refuse(32, samples.iter().any(|sample| outside(*sample, depth)))?;
    NOWHERE.refuse(33, frames(samples, channels) > 4_294_967_295)
}

fn outside(sample: i32, depth: u16) -> bool {
    let half = 1i64 << (depth - 1);
    i64::from(sample) < -half || i64::from(sample) >= half
}

fn frames(samples: &[i32], channels: u16) -> u64 {
    samples.len() as u64 / u64::from(channels)
}

/// The samples of each group.
fn grouped(samples: &[i32], channels: u16) -> impl Iterator<Item = (u64, &[i32])> {
    (0..).zip(samples.chunks(512 * usize::from(channels)))
}

/// Whether a frame of two has one odd and one even sample.
fn parity_differs(group: &[i32]) -> bool {
    group.chunks(2).any(|frame| frame[0] & 1 != frame[1] & 1)
}

fn encoded(samples: &[i32], channels: u16, depth: u16, rate: u32, mode: u32) -> Checked {
    accepted(ENCODER, samples, channels, depth, rate)?;
    if mode != MID_SIDE {
        return Ok(());
    }
    NOWHERE.refuse(34, channels != 2)?;
    grouped(samples, channels).try_for_each(|(k, group)| Place::of_group(k).refuse(35, parity_differs(group)))
}

// ---- re-encoding

fn reencoded(samples: &[i32], channels: u16, depth: u16, rate: u32, template: &[u8]) -> Checked {
    accepted(REENCODER, samples, channels, depth, rate)?;
    let template = File::of(template)?;
    let call = (u64::from(channels), u64::from(depth), u64::from(rate), frames(samples, channels));
    NOWHERE.refuse(40, (template.channels, template.depth, template.rate, template.frames) != call)?;
    let bounds = template.table >= 120 && template.data >= template.table && template.has_table_length();
    NOWHERE.refuse(41, !bounds || template.ends_too_soon())?;
    NOWHERE.refuse(42, !template.rises())?;
    grouped(samples, channels).try_for_each(|(k, group)| template.group_taken_over(k, group))
}

impl File<'_> {
    /// Whether the entries rise from 0 to the data size, none being equal to the one before it.
    fn rises(&self) -> bool {
        let last = self.groups();
        self.entry(0) == 0 && (0..last).all(|k| self.entry(k) < self.entry(k + 1)) && self.entry(last) == self.size
    }

    /// One group of a template, with the samples for it.
    fn group_taken_over(&self, group: u64, samples: &[i32]) -> Checked {
        let (mut at, end) = (self.begin(group), self.end(group));
        let place = Place::of_group(group);
        place.refuse(43, end - at < 12)?;
        let mid_side = self.flags(at) & 1 == 1;
        if mid_side {
            place.refuse(34, self.channels != 2)?;
            place.refuse(35, parity_differs(samples))?;
        }
        for channel in 0..self.channels {
            let place = Place { group, channel };
            let behind = self.block_taken_over(place, at, end)?;
            let misfit =
                misfit::in_block(samples, self.channels as usize, channel as usize, mid_side, self.bytes, at as usize);
            misfit.map_or(Ok(()), |k| place.tell(36, k as u16, true))?;
            at = behind;
        }
        place.refuse(46, at != end)
    }

    /// One block's header and length: where it ends.
    fn block_taken_over(&self, place: Place, at: u64, end: u64) -> Checked<u64> {
        place.refuse(1, at + 16 > end)?;
        place.refuse(3, !self.has_block_signature(at))?;
        place.refuse(44, [0, 1].contains(&self.bits(at)))?;
        place.refuse(45, self.flags(at) > 1)?;
        self.end_of_block(place, at, end)
    }
}

#[cfg(test)]
mod tests {
    use super::*;

    const RATE: u32 = 44_100;

    fn block(bits: i16, flags: u16) -> Vec<u8> {
        let mut block = vec![0x16, 0x0C, 0x9A, 0x3E, 0, 0, 0, 0];
        block.extend([bits as u16, flags].map(u16::to_le_bytes).concat());
        block.resize(16 + 64 * usize::from(bits.unsigned_abs()), 0);
        block
    }

    /// A file of 16 bits with these groups, all but the last of 512 frames.
    fn file(channels: u16, frames: u32, groups: &[Vec<u8>]) -> Vec<u8> {
        let mut file = vec![0x01, 0xA8, 0x9E, 0xD6, 0x31, 0x01, 0x00, 0x00];
        file.extend([channels, 16].map(u16::to_le_bytes).concat());
        let size = groups.iter().map(Vec::len).sum::<usize>() as u32;
        file.extend([RATE, frames, 120, 124 + 4 * groups.len() as u32, size].map(u32::to_le_bytes).concat());
        file.resize(120, 0);
        let mut entry = 0;
        for group in groups {
            file.extend(u32::to_le_bytes(entry));
            entry += group.len() as u32;
        }
        file.extend(entry.to_le_bytes());
        file.extend(groups.concat());
        file
    }

    /// Three groups of two blocks, the two given ones being the second and third.
    fn stereo(second: [Vec<u8>; 2], third: [Vec<u8>; 2]) -> Vec<u8> {
        file(2, 1025, &[[block(2, 0), block(3, 0)].concat(), second.concat(), third.concat()])
    }

    fn good() -> [Vec<u8>; 2] {
        [block(4, 0), block(-5, 0)]
    }

    fn at(number: u32, told: i16, group: u32, channel: u16) -> Option<Refused> {
        Some(Refused { number, told: told as u16, group, channel })
    }

    fn wrong_mark(mut block: Vec<u8>) -> Vec<u8> {
        block[0] = 0;
        block
    }

    #[test]
    fn openings() {
        let whole = stereo(good(), good());
        assert_eq!([opening(&whole), decoding(&whole)], [None, None]);
        assert_eq!(opening(&whole[..119]), at(1, 0, 0, 0));
        assert_eq!(opening(&whole[..whole.len() - 1]), at(1, 0, 0, 0));
        assert_eq!(opening(&stereo([block(1, 0), vec![]], [block(1, 0), vec![]])), at(19, 0, 1, 0));
        assert_eq!(opening(&stereo(good(), [block(1, 0), vec![]])), at(19, 0, 2, 0));
        assert_eq!(opening(&file(1, 1, &[wrong_mark(block(1, 0))])), at(3, 0, 0, 0));
        let empty = file(2, 0, &[]);
        assert_eq!([opening(&empty), decoding(&empty), step(&empty, 0)], [None; 3]);
    }

    #[test]
    fn decodings() {
        let long = |bits| block(bits, 0)[..272].to_vec();
        for (blocks, number, told, channel) in [
            ([block(8, 0), vec![]], 1, 0, 1),
            ([block(2, 0), wrong_mark(block(2, 0))], 3, 0, 1),
            ([block(2, 0), block(2, 2)], 20, 0, 1),
            ([block(2, 2), block(2, 0)], 20, 0, 0),
            ([block(2, 0), block(-33, 0)], 4, -33, 1),
            ([block(33, 0), block(2, 2)], 4, 33, 0),
            ([block(2, 0), long(5)], 1, 0, 1),
            ([block(2, 0), [block(2, 0), vec![0]].concat()], 22, 0, 0),
        ] {
            let bad = at(number, told, 1, channel);
            let bytes = stereo(blocks, [block(99, 0), block(99, 0)]);
            assert_eq!([decoding(&bytes), step(&bytes, 1)], [bad; 2], "{number}");
            assert_eq!([opening(&bytes), step(&bytes, 0), step(&bytes, 3)], [None; 3], "{number}");
            assert_eq!(step(&bytes, 2), at(4, 99, 2, 0));
        }
        let mono = file(1, 513, &[block(2, 0), block(2, 1)]);
        assert_eq!(decoding(&mono), at(21, 0, 1, 0));
        assert_eq!(step(&mono[..119], 7), at(1, 0, 0, 0));
    }

    #[test]
    fn encodings() {
        let mut samples = vec![2; 4096];
        assert_eq!(encoding(&samples, 2, 16, RATE, 2), None);
        (samples[2047], samples[4095]) = (1, 1);
        assert_eq!(encoding(&samples, 2, 16, RATE, 2), at(35, 0, 1, 0));
        assert_eq!([encoding(&samples, 2, 16, RATE, 1), encoding(&samples, 1, 16, RATE, 0)], [None; 2]);
        assert_eq!(encoding(&samples, 1, 16, RATE, 2), at(34, 0, 0, 0));
        assert_eq!(encoding(&samples[1..], 2, 16, RATE, 2), at(31, 0, 0, 0));
        samples[4095] = 32_768;
        assert_eq!(encoding(&samples, 2, 16, RATE, 2), at(32, 0, 0, 0));
        assert_eq!(encoding(&samples, 2, 9, RATE, 2), at(30, 0, 0, 0));
        assert_eq!([encoding(&samples, 8, 32, RATE, 0), encoding(&[127, -128], 1, 8, RATE, 0)], [None; 2]);
        assert_eq!(encoding(&samples[..9], 9, 32, RATE, 0), at(30, 0, 0, 0));
    }

    #[test]
    fn reencodings() {
        let mut samples = vec![0; 2050];
        (samples[1024 + 1], samples[2048], samples[2049]) = (1, 9, 9);
        let asked = |template: &[u8]| reencoding(&samples, 2, 16, RATE, template);
        for (blocks, number, told, channel) in [
            ([vec![0; 11], vec![]], 43, 0, 0),
            ([block(2, 1), block(2, 0)], 35, 0, 0),
            ([block(2, 0), vec![0; 15]], 1, 0, 1),
            ([block(2, 0), wrong_mark(block(2, 0))], 3, 0, 1),
            ([block(2, 0), block(1, 0)], 44, 0, 1),
            ([block(2, 0), block(2, 2)], 45, 0, 1),
            ([block(2, 0), block(-33, 0)], 4, -33, 1),
            ([block(2, 0), block(-3, 0)[..207].to_vec()], 1, 0, 1),
            ([block(2, 0), block(-1, 0)], 36, 0, 1),
            ([block(2, 0), [block(2, 0), vec![0]].concat()], 46, 0, 0),
            ([block(2, 0), block(2, 0)], 36, 0, 0),
        ] {
            let last = number == 36 && channel == 0;
            let bad = at(number, told, if last { 2 } else { 1 }, channel);
            assert_eq!(asked(&stereo(blocks, good())), bad, "{number}");
        }
        assert_eq!(asked(&stereo([block(2, 0), block(2, 0)], [block(-6, 0), block(-6, 0)])), None);
        assert_eq!(asked(&stereo([block(2, 0), vec![]], [vec![], vec![]])), at(42, 0, 0, 0));
        let mono = file(1, 513, &[block(2, 0), block(2, 1)]);
        assert_eq!(reencoding(&[0; 513], 1, 16, RATE, &mono), at(34, 0, 1, 0));
        assert_eq!(reencoding(&[0; 512], 1, 16, RATE, &mono), at(40, 0, 0, 0));
        assert_eq!(
            [(3, 16), (1, 8), (1, 32)].map(|(c, d)| reencoding(&[0; 513], c, d, RATE, &mono)),
            [at(30, 0, 0, 0); 3]
        );
    }

    /// Places of 36: the first by group, then channel, then place.
    #[test]
    fn misfits() {
        let template = stereo([block(-4, 0), block(-4, 0)], [block(-4, 0), block(-4, 0)]);
        let with = |changes: &[usize]| {
            let mut samples = vec![0; 2050];
            changes.iter().for_each(|k| samples[*k] = 8);
            reencoding(&samples, 2, 16, RATE, &template)
        };
        assert_eq!(with(&[1024 + 1, 1024 + 2 * 300, 2048]), at(36, 300, 1, 0));
        assert_eq!(with(&[1024 + 2 * 511 + 1, 2048]), at(36, 511, 1, 1));
        assert_eq!(with(&[2049]), at(36, 0, 2, 1));
    }

    /// Numbers of a header at their limits, in any of its places: every question has an answer.
    #[test]
    fn any_bytes() {
        let whole = stereo(good(), good());
        for (at, value) in (8..140).flat_map(|at| [0, 1, 120, 1 << 31, u32::MAX].map(|value| (at, value))) {
            for length in [119, 120, 139, 140, 141, 156, whole.len()] {
                let mut bytes = whole[..length].to_vec();
                bytes.iter_mut().skip(at).zip(value.to_le_bytes()).for_each(|(byte, new)| *byte = new);
                let opens = opening(&bytes);
                assert!(opens.is_none() || [decoding(&bytes), step(&bytes, 1), step(&bytes, u32::MAX)] == [opens; 3]);
                let _ = reencoding(&[0; 2050], 2, 16, RATE, &bytes);
            }
        }
    }
}
