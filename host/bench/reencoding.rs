//! The sides that re-encode: the input's file is the template.
use crate::input::Input;
use crate::writing::Sides;
use std::hint::black_box;

pub const SIDES: Sides = Sides { original, lent, drop_in };

fn original(input: &Input) -> Vec<u8> {
    ncw::encode_pcm_with_template(black_box(&input.samples), input.spec, black_box(&input.file))
        .expect("the original re-encodes the samples")
}

fn lent(input: &Input, room: &mut [u8]) -> Result<usize, ours::NcwError> {
    ours::encode_with_template_into(black_box(&input.samples), input.our_spec(), black_box(&input.file), room)
}

fn drop_in(input: &Input) -> Vec<u8> {
    ours::encode_pcm_with_template(black_box(&input.samples), input.our_spec(), black_box(&input.file))
        .expect("the drop-in re-encodes the samples")
}
