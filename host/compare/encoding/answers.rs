//! How many calls met each answer, and what the files are made of.
use super::Call;
use crate::input::{word, Answers, SUCCESS};
use crate::lent::Written;
use crate::parts::parts;
use crate::refusals::Places;
use crate::table::{line, width_of, width_word, Table, Width};

pub type Tally = crate::input::Tally<OfCalls>;

#[derive(Default)]
pub struct OfCalls {
    /// By number and by mode: those of calls that the original decides, and those of the reference. The last column is for all other modes.
    numbers: [Table<u32, 4>; 2],
    pub places: Places,
    /// Files by channels and depth.
    formats: Table<u16, 4>,
    /// By the flags.
    groups: Table<&'static str, 2>,
    /// By the bits word and the flags.
    blocks: Table<Width, 2>,
}

impl Tally {
    pub fn note(&mut self, call: &Call, said: &Written, by_reference: bool) {
        self.inputs += 1;
        let numbers = &mut self.answers.numbers[usize::from(by_reference)];
        numbers.note(*said.as_ref().err().unwrap_or(&SUCCESS), call.mode as usize);
        if let Ok(file) = said {
            self.samples += call.samples.len() as u64 / 4;
            self.answers.formats.note(call.channels, usize::from(call.depth / 8).saturating_sub(1));
            self.answers.note_groups(file);
        }
    }
}

impl OfCalls {
    fn note_groups(&mut self, file: &[u8]) {
        for group in parts(file).map_or(Vec::new(), |file| file.groups) {
            self.groups.note("groups", group[0].flags.into());
            group.iter().for_each(|block| self.blocks.note(width_of(block.bits), block.flags.into()));
        }
    }
}

impl Answers for OfCalls {
    fn add(&mut self, other: &Self) {
        self.numbers.iter_mut().zip(&other.numbers).for_each(|(numbers, more)| numbers.add(more));
        self.places.add(&other.places);
        self.formats.add(&other.formats);
        self.groups.add(&other.groups);
        self.blocks.add(&other.blocks);
    }

    /// The answers by mode, and where they are; then the files, the groups, and the blocks by width.
    fn print(&self) {
        for (name, numbers) in ["answer", "reference"].iter().zip(&self.numbers) {
            line(name, ["auto", "direct", "mid/side", "no mode"]);
            numbers.print(word);
        }
        self.places.print();
        line("channels", ["8 bits", "16 bits", "24 bits", "32 bits"]);
        self.formats.print(|channels| channels.to_string());
        line("width", ["direct", "mid/side"]);
        self.groups.print(str::to_string);
        self.blocks.print(width_word);
    }
}
