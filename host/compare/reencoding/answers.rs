//! How many calls met each answer, and what the accepted templates are made of.
use super::misfits::Misfits;
use super::Call;
use crate::input::{word, Answers, SUCCESS};
use crate::lent::Written;
use crate::parts::{parts, Block};
use crate::refusals::Places;
use crate::table::{line, width_of, width_word, Table, Width};

pub type Tally = crate::input::Tally<OfCalls>;

#[derive(Default)]
pub struct OfCalls {
    /// By number: one channel, two, others.
    numbers: Table<u32, 3>,
    /// Whether the template itself came out.
    kept: Table<&'static str, 2>,
    /// By the bits word: in direct groups with flags 0 and 1, in mid/side ones with flags 0 and 1.
    blocks: Table<Width, 4>,
    pub places: Places,
    pub misfits: Misfits,
}

impl Tally {
    pub fn note(&mut self, call: &Call, said: &Written) {
        self.inputs += 1;
        self.answers.numbers.note(*said.as_ref().err().unwrap_or(&SUCCESS), call.channels.wrapping_sub(1).into());
        if let Ok(file) = said {
            self.samples += call.samples.len() as u64 / 4;
            self.answers.kept.note("files", usize::from(*file != call.template));
            self.answers.note_blocks(file);
        }
    }
}

impl OfCalls {
    fn note_blocks(&mut self, file: &[u8]) {
        for group in parts(file).map_or(Vec::new(), |file| file.groups) {
            let mid = 2 * (group[0].flags & 1);
            let column = |block: &Block| (mid + (block.flags & 1)).into();
            group.iter().for_each(|block| self.blocks.note(width_of(block.bits), column(block)));
        }
    }
}

impl Answers for OfCalls {
    fn add(&mut self, other: &Self) {
        self.numbers.add(&other.numbers);
        self.kept.add(&other.kept);
        self.blocks.add(&other.blocks);
        self.places.add(&other.places);
        self.misfits.add(&other.misfits);
    }

    /// The answers by channels, and where they are; how many files are the template; the blocks by width; what 36 is told of.
    fn print(&self) {
        line("answer", ["mono", "stereo", "others"]);
        self.numbers.print(word);
        self.places.print();
        line("", ["template", "changed"]);
        self.kept.print(str::to_string);
        line("width", ["direct 0", "direct 1", "mid/side 0", "mid/side 1"]);
        self.blocks.print(width_word);
        self.misfits.print();
    }
}
