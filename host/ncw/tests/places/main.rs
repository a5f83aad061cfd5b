//! Where the crate over the archive refuses, held to document 02 and to the reference for it (`host/definitions/located.rs`), whose own tests are here.
#[allow(dead_code)]
#[path = "../../../recorded/blocks.rs"]
mod blocks;
#[allow(dead_code)]
#[path = "../../../definitions/faults.rs"]
mod faults;
#[allow(dead_code)]
#[path = "../../../definitions/files.rs"]
mod files;
#[allow(dead_code)]
#[path = "../../../definitions/located.rs"]
mod located;
#[allow(dead_code)]
#[path = "../../../definitions/misfit.rs"]
mod misfit;
mod misfits;
#[allow(dead_code)]
#[path = "../../../definitions/random.rs"]
mod random;
mod reading;
mod reencoding;

use files::Block;
use ncw::{NcwError, PcmSpec, Refused};

/// Number, what is told with it (4's bits word, 36's place), group, channel.
type Told = (u32, u16, u32, u16);

fn told(refused: Refused) -> Told {
    let with = match refused.error {
        NcwError::UnsupportedBitDepth(bits) => bits as u16,
        _ => refused.place,
    };
    (refused.number().unwrap(), with, refused.group, refused.channel)
}

fn by_reference(refused: located::Refused) -> Told {
    (refused.number, refused.told, refused.group, refused.channel)
}

/// What decoding refuses, the room being enough.
fn decoding(file: &[u8]) -> Option<Told> {
    let said = ncw::decode_refusal(file, usize::MAX).map(told);
    assert_eq!(said, located::decoding(file).map(by_reference), "the reference");
    said
}

/// What re-encoding refuses at 44,100, the room being enough.
fn reencoding(samples: &[i32], channels: u16, depth: u16, template: &[u8]) -> Option<Told> {
    let spec = PcmSpec { channels, bits_per_sample: depth, sample_rate: 44_100 };
    let said = ncw::reencode_refusal(samples, spec, template, usize::MAX).map(told);
    let reference = located::reencoding(samples, channels, depth, 44_100, template);
    assert_eq!(said, reference.map(by_reference), "the reference");
    said
}

/// The byte of a block's signature that faults change.
const MARK: usize = 3;

/// A block with bytes left out at its end, or more of them.
fn of_length(length: usize, block: Block) -> Block {
    let mut run = block.run;
    run.resize(length - 16, 0);
    Block { run, ..block }
}
