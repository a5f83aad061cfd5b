//! A file's samples a piece at a time.
use crate::blocks::{file, filled, noisy};
use crate::files::File;
use crate::random::Random;
use crate::reader;
use ncw::SAMPLES_AT_ONCE;

fn noise(channels: u16, frames: u32) -> File {
    let random = &mut Random::new(1);
    filled(channels, frames, || noisy(3, random))
}

#[test]
fn all_samples_in_order() {
    let most = SAMPLES_AT_ONCE as u32;
    for (channels, frames, lengths) in [
        (1, 0, &[][..]),
        (1, 1, &[1]),
        (1, most, &[SAMPLES_AT_ONCE]),
        (1, most + 1, &[SAMPLES_AT_ONCE, 1]),
        (2, most + 9, &[SAMPLES_AT_ONCE, SAMPLES_AT_ONCE, 18]),
        (3, most / 3 + 1, &[3 * 512 * 170, 3 * 342]),
        (600, 1_030, &[600 * 512, 600 * 512, 600 * 6]),
    ] {
        let bytes = noise(channels, frames).bytes();
        let pieces: Vec<_> = reader(&bytes).pieces().map(Result::unwrap).collect();
        assert!(pieces.iter().map(Vec::len).eq(lengths.iter().copied()), "{channels} channels, {frames} frames");
        assert!(pieces.concat() == reader(&bytes).decode_samples().unwrap());
    }
}

/// What lies before the piece with the damage is given; then the refusal, and nothing more.
#[test]
fn a_damaged_group() {
    for (group, before) in [(0, 0), (255, 0), (256, 1), (511, 1), (512, 2)] {
        let mut damaged = noise(2, 300_000);
        damaged.groups[group][1].bits = -40;
        let bytes = damaged.bytes();
        let reader = reader(&bytes);
        let mut pieces = reader.pieces();
        for k in 0..before {
            assert_eq!(pieces.next().unwrap().unwrap(), reader.read_frames(k * 131_072, 131_072).unwrap());
        }
        assert_eq!(pieces.next().unwrap().unwrap_err().to_string(), "bits word beyond 32 either way: -40");
        assert!(pieces.next().is_none());
        assert!(pieces.next().is_none(), "a second time");
    }
}

#[test]
fn what_is_printed() {
    let bytes = file(1, 16, 0, vec![]).bytes();
    assert_eq!(format!("{:?}", reader(&bytes).pieces()), "Pieces { next: 0, .. }");
}
