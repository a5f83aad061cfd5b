//! Inputs as libFuzzer's bytes, and back. Numbers have their lowest byte first.
use super::edge::Edge;
use crate::boundary;
use crate::input::Input;
use crate::lent::{as_bytes, REFUSED};
use crate::{encoding, frames, peaks, reencoding};

pub trait Fuzzed: Input {
    /// None where there are too few bytes.
    fn from_bytes(bytes: &[u8]) -> Option<Self>;

    /// None where there is no place for a length.
    fn to_bytes(&self) -> Option<Vec<u8>>;

    /// The boundary's calls with lent memory that ends at an edge: a step over it is a crash.
    fn ask_at(&self, edges: &mut [Edge; 3]);
}

/// The file itself.
impl Fuzzed for Vec<u8> {
    fn from_bytes(bytes: &[u8]) -> Option<Self> {
        Some(bytes.to_vec())
    }

    fn to_bytes(&self) -> Option<Vec<u8>> {
        Some(self.clone())
    }

    fn ask_at(&self, [file, samples, _]: &mut [Edge; 3]) {
        let file = file.of(self);
        let answer = boundary::open(file);
        boundary::decode(file, samples.room(if answer < REFUSED { answer as usize } else { 0 }));
        boundary::decode_refusal(file, u64::MAX);
    }
}

/// The first frame and the count in 4 bytes each, the file.
impl Fuzzed for frames::Call {
    fn from_bytes(bytes: &[u8]) -> Option<Self> {
        let (head, file) = bytes.split_first_chunk::<8>()?;
        Some(frames::Call { file: file.to_vec(), first: four(head, 0), count: four(head, 4) })
    }

    fn to_bytes(&self) -> Option<Vec<u8>> {
        Some([&self.first.to_le_bytes()[..], &self.count.to_le_bytes(), &self.file].concat())
    }

    /// With all the room there is, then with just enough.
    fn ask_at(&self, [file, samples, _]: &mut [Edge; 3]) {
        let file = file.of(&self.file);
        let answer = boundary::read_frames(file, self.first, self.count, samples.room(usize::MAX));
        if answer < REFUSED {
            boundary::read_frames(file, self.first, self.count, samples.room(answer as usize));
        }
    }
}

/// The group and the channel in 4 bytes each, in 2 how many bytes of the summary follow; after them the file.
impl Fuzzed for peaks::Call {
    fn from_bytes(bytes: &[u8]) -> Option<Self> {
        let (head, rest) = bytes.split_first_chunk::<10>()?;
        let (summary, file) = rest.split_at(rest.len().min(two(head, 8).into()));
        let (group, channel) = (four(head, 0), four(head, 4));
        Some(peaks::Call { summary: summary.to_vec(), file: file.to_vec(), group, channel })
    }

    fn to_bytes(&self) -> Option<Vec<u8>> {
        let length = u16::try_from(self.summary.len()).ok()?.to_le_bytes();
        let head = [&self.group.to_le_bytes()[..], &self.channel.to_le_bytes(), &length].concat();
        Some([head, self.summary.clone(), self.file.clone()].concat())
    }

    /// Each that writes with all the room there is, then with just enough.
    fn ask_at(&self, [summary, file, room]: &mut [Edge; 3]) {
        let (summary, file) = (summary.of(&self.summary), file.of(&self.file));
        twice(room, |room| boundary::peaks(file, room));
        twice(room, |room| boundary::peaks_all(summary, room));
        twice(room, |room| boundary::peak(summary, self.group, self.channel, room));
        boundary::peaks_check(summary, file);
    }
}

fn twice(room: &mut Edge, call: impl Fn(&mut [u8]) -> u64) {
    let answer = call(room.room(usize::MAX));
    if answer < REFUSED {
        call(room.room(answer as usize));
    }
}

/// Channels and depth in 2 bytes each, rate and mode in 4, the bytes of the samples.
impl Fuzzed for encoding::Call {
    fn from_bytes(bytes: &[u8]) -> Option<Self> {
        let (head, samples) = bytes.split_first_chunk::<12>()?;
        Some(encoding::Call {
            samples: samples.to_vec(),
            channels: two(head, 0),
            depth: two(head, 2),
            rate: four(head, 4),
            mode: four(head, 8),
        })
    }

    fn to_bytes(&self) -> Option<Vec<u8>> {
        let (channels, depth) = (self.channels.to_le_bytes(), self.depth.to_le_bytes());
        Some([&channels, &depth, &self.rate.to_le_bytes()[..], &self.mode.to_le_bytes(), &self.samples].concat())
    }

    fn ask_at(&self, [samples, file, _]: &mut [Edge; 3]) {
        let samples = samples.of(&self.samples);
        let mut ask =
            |room| boundary::encode(samples, self.channels, self.depth, self.rate, self.mode, file.room(room));
        let answer = ask(self.longest());
        if answer < REFUSED {
            ask(answer as usize);
        }
    }
}

/// As those of encoding. But unless the rate is the highest it becomes a call that only the original refuses by 30, in a
/// mode that there is, with whole frames of samples within the depth. What is so already stays.
pub fn wide(bytes: &[u8]) -> Option<encoding::Call> {
    let call = encoding::Call::from_bytes(bytes)?;
    Some(if call.rate == u32::MAX { call } else { widened(call) })
}

fn widened(call: encoding::Call) -> encoding::Call {
    let up_to = |most: u16, number: u16| number.wrapping_sub(1) % most + 1;
    let channels = up_to(8, call.channels);
    let depth = match 8 * up_to(4, call.depth / 8) {
        16 if channels < 3 => 8,
        24 if channels < 3 => 32,
        depth => depth,
    };
    let within = |sample: i32| sample << (32 - depth) >> (32 - depth);
    let samples = call.samples.chunks_exact(4).map(|sample| within(four(sample, 0) as i32));
    let whole = call.samples.len() / 4 / usize::from(channels) * usize::from(channels);
    encoding::Call {
        samples: as_bytes(&samples.take(whole).collect::<Vec<_>>()),
        channels,
        depth,
        rate: call.rate.max(1),
        mode: call.mode % 3,
    }
}

/// Channels and depth in 2 bytes each, rate in 4, in 2 how many bytes of samples follow; after them the template.
impl Fuzzed for reencoding::Call {
    fn from_bytes(bytes: &[u8]) -> Option<Self> {
        let (head, rest) = bytes.split_first_chunk::<10>()?;
        let (samples, template) = rest.split_at(rest.len().min(two(head, 8).into()));
        Some(reencoding::Call {
            samples: samples.to_vec(),
            channels: two(head, 0),
            depth: two(head, 2),
            rate: four(head, 4),
            template: template.to_vec(),
        })
    }

    fn to_bytes(&self) -> Option<Vec<u8>> {
        let (channels, depth) = (self.channels.to_le_bytes(), self.depth.to_le_bytes());
        let length = u16::try_from(self.samples.len()).ok()?.to_le_bytes();
        Some([&channels, &depth, &self.rate.to_le_bytes()[..], &length, &self.samples, &self.template].concat())
    }

    fn ask_at(&self, [samples, template, file]: &mut [Edge; 3]) {
        let (samples, template) = (samples.of(&self.samples), template.of(&self.template));
        let file = file.room(self.template.len());
        boundary::reencode(samples, self.channels, self.depth, self.rate, template, file);
        boundary::reencode_refusal(samples, self.channels, self.depth, self.rate, template, u64::MAX);
    }
}

fn two(head: &[u8], at: usize) -> u16 {
    u16::from_le_bytes([head[at], head[at + 1]])
}

fn four(head: &[u8], at: usize) -> u32 {
    u32::from(two(head, at)) | u32::from(two(head, at + 2)) << 16
}
