//! The sides that encode.
use crate::input::Input;
use crate::writing::Sides;
use ncw::StereoMode;
use std::hint::black_box;

pub const SIDES: Sides = Sides { original, lent, drop_in };

fn original(input: &Input) -> Vec<u8> {
    ncw::encode_pcm(black_box(&input.samples), input.spec, input.mode).expect("the original encodes the samples")
}

fn lent(input: &Input, room: &mut [u8]) -> Result<usize, ours::NcwError> {
    ours::encode_into(black_box(&input.samples), input.our_spec(), mode(input), room)
}

fn drop_in(input: &Input) -> Vec<u8> {
    ours::encode_pcm(black_box(&input.samples), input.our_spec(), mode(input)).expect("the drop-in encodes the samples")
}

/// The row's mode in the drop-in's type.
fn mode(input: &Input) -> ours::StereoMode {
    match input.mode {
        StereoMode::Auto => ours::StereoMode::Auto,
        StereoMode::Direct => ours::StereoMode::Direct,
        StereoMode::MidSide => ours::StereoMode::MidSide,
    }
}
