//! How many files met each answer.
use super::sides::Said;
use crate::input::{word, Answers, Refused, SUCCESS};
use crate::refusals::Places;
use crate::table::{line, Table};

pub type Tally = crate::input::Tally<OfFiles>;

#[derive(Default)]
pub struct OfFiles {
    /// By number: opening, and decoding, which is asked of the files that open.
    numbers: Table<u32, 2>,
    pub places: Places,
}

impl Tally {
    pub fn note(&mut self, said: &Said) {
        self.inputs += 1;
        self.answers.numbers.note(number(&said.opened), 0);
        if said.opened.is_ok() {
            self.answers.numbers.note(number(&said.decoded), 1);
            self.samples += said.decoded.as_ref().map_or(0, Vec::len) as u64;
        }
    }
}

fn number<T>(said: &Result<T, Refused>) -> u32 {
    said.as_ref().err().map_or(SUCCESS, |(number, _)| *number)
}

impl Answers for OfFiles {
    fn add(&mut self, other: &Self) {
        self.numbers.add(&other.numbers);
        self.places.add(&other.places);
    }

    fn print(&self) {
        line("answer", ["opening", "decoding"]);
        self.numbers.print(word);
        self.places.print();
    }
}
