//! What was encoded is decoded again.
use crate::random::Random;
use crate::{samples, spec, DEPTHS, MODES};
use ncw::{encode_pcm, NcwReader};
use std::io::Cursor;

#[test]
fn encoded_and_decoded() {
    let random = &mut Random::new(20_261_115);
    for (channels, depth) in (1..=8).flat_map(|channels| DEPTHS.map(|depth| (channels, depth))) {
        let modes = if channels == 2 { &MODES[..] } else { &MODES[..2] };
        for (mode, frames) in modes.iter().flat_map(|m| [0, 1, 2, 511, 512, 513, 1024, 1500].map(|n| (*m, n))) {
            let samples = samples(channels, depth, frames, random);
            let file = encode_pcm(&samples, spec(channels, depth), mode).unwrap();
            let mut reader = NcwReader::read(Cursor::new(&file)).unwrap();
            assert_eq!((reader.header.channels, reader.header.bits_per_sample), (channels, depth));
            assert_eq!((reader.header.num_samples, reader.header.sample_rate), (frames as u32, 44_100));
            assert_eq!(reader.decode_samples().unwrap(), samples, "{mode:?}, {channels} channels, depth {depth}");
        }
    }
}
