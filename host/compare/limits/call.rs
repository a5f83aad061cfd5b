//! One call with more samples than memory holds, on both sides.
use crate::asking;
use crate::boundary;
use crate::encoding::{MODES, OUR_MODES};
use crate::errors::number_of;
use crate::input::{calmly, differ, word, Difference, SUCCESS};
use crate::lent::check_room;
use crate::refusals::{check_words, nowhere};
use crate::writing::RATE;
use std::io::{stdout, Write};
use std::slice;
use std::time::Instant;

/// Less than any file has.
const ROOM: usize = 100;

pub type Tally = crate::input::Tally<()>;

#[derive(Clone, Copy)]
pub enum Operation<'a> {
    /// By the number of the mode.
    Encode(u32),
    /// By the template.
    Reencode(&'a [u8]),
}

pub struct Call<'a> {
    pub operation: Operation<'a>,
    pub channels: u16,
    pub depth: u16,
    pub samples: &'a [i32],
    /// What they are in words.
    pub kind: &'a str,
    /// The documents' refusal.
    pub number: u32,
}

impl Call<'_> {
    /// All sides.
    pub fn check(&self, tally: &mut Tally) -> Result<(), Difference> {
        let begun = self.begin();
        self.same("the Rust original", Self::by_original)?;
        self.same("the drop-in crate", Self::by_drop_in)?;
        tally.calls += 1;
        self.check_boundary(tally)?;
        println!("{}, by the Rust too, {:.1} s", word(self.number), begun.elapsed().as_secs_f64());
        Ok(())
    }

    /// The host boundary alone: the original would take memory for every group, or says 30, which is its own.
    pub fn check_ours(&self, tally: &mut Tally) -> Result<(), Difference> {
        let begun = self.begin();
        self.check_boundary(tally)?;
        println!("{}, {:.1} s", word(self.number), begun.elapsed().as_secs_f64());
        Ok(())
    }

    /// Says which call it is, before a crash could.
    fn begin(&self) -> Instant {
        let what = match self.operation {
            Operation::Encode(mode) => format!("encode, {:?}", MODES[mode as usize]),
            Operation::Reencode(template) => format!("re-encode, a template of {} bytes", template.len()),
        };
        let frames = self.samples.len() / usize::from(self.channels);
        print!("{what}, channels {}, depth {}, {frames} frames of {}: ", self.channels, self.depth, self.kind);
        stdout().flush().expect("standard output");
        Instant::now()
    }

    fn same(&self, side: &str, asked: impl FnOnce(&Self) -> u32) -> Result<(), Difference> {
        match calmly(side, || asked(self))? {
            number if number == self.number => Ok(()),
            number => differ(side, &word(self.number), &word(number)),
        }
    }

    fn check_boundary(&self, tally: &mut Tally) -> Result<(), Difference> {
        let name = "the host boundary";
        calmly(name, || check_room(name, |room| self.by_boundary(room), ROOM, 0, &Err(self.number), tally))??;
        match self.operation {
            Operation::Encode(_) => Ok(()),
            Operation::Reencode(template) => calmly(name, || self.check_word(template, tally))?,
        }
    }

    /// None of them concerns a group.
    fn check_word(&self, template: &[u8], tally: &mut Tally) -> Result<(), Difference> {
        let call = |room| boundary::reencode_refusal(self.bytes(), self.channels, self.depth, RATE, template, room);
        check_words("ncw_reencode_refusal", call, &[ROOM], 0, Some(nowhere(self.number)), tally)
    }

    fn by_original(&self) -> u32 {
        let spec = ncw::PcmSpec { channels: self.channels, bits_per_sample: self.depth, sample_rate: RATE };
        let said = match self.operation {
            Operation::Encode(mode) => ncw::encode_pcm(self.samples, spec, MODES[mode as usize]),
            Operation::Reencode(template) => ncw::encode_pcm_with_template(self.samples, spec, template),
        };
        said.map_or_else(|error| asking::refused(error).0, |_| SUCCESS)
    }

    fn by_drop_in(&self) -> u32 {
        let spec = ours::PcmSpec { channels: self.channels, bits_per_sample: self.depth, sample_rate: RATE };
        let said = match self.operation {
            Operation::Encode(mode) => ours::encode_pcm(self.samples, spec, OUR_MODES[mode as usize]),
            Operation::Reencode(template) => ours::encode_pcm_with_template(self.samples, spec, template),
        };
        said.map_or_else(|error| number_of(&error), |_| SUCCESS)
    }

    fn by_boundary(&self, room: &mut [u8]) -> u64 {
        let (bytes, channels, depth) = (self.bytes(), self.channels, self.depth);
        match self.operation {
            Operation::Encode(mode) => boundary::encode(bytes, channels, depth, RATE, mode, room),
            Operation::Reencode(template) => boundary::reencode(bytes, channels, depth, RATE, template, room),
        }
    }

    fn bytes(&self) -> &[u8] {
        // SAFETY: the bytes are just those of the samples, borrowed as long.
        unsafe { slice::from_raw_parts(self.samples.as_ptr().cast(), size_of_val(self.samples)) }
    }
}
