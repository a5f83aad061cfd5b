//! How many summaries and files met each answer.
use super::sides::Said;
use super::Call;
use crate::input::{word, Answers, SUCCESS};
use crate::table::{line, Table};

pub type Tally = crate::input::Tally<OfSummaries>;

/// More pairs than so many are counted with these.
const MOST_PAIRS: usize = 6;

#[derive(Default)]
pub struct OfSummaries {
    /// By number: building, reading all pairs, reading the one that is asked for, checking.
    numbers: Table<u32, 4>,
    /// What is told of the bytes beside a file that has a summary: they are this summary, they are another one, they are none.
    verdicts: Table<bool, 3>,
    /// By how many pairs a summary holds: those built, those read.
    pairs: Table<usize, 2>,
}

impl Tally {
    pub fn note(&mut self, call: &Call, said: &Said) {
        self.inputs += 1;
        let answers = &mut self.answers;
        let numbers = [number(&said.built), number(&said.read), number(&said.pair), number(&said.same)];
        numbers.into_iter().enumerate().for_each(|(column, number)| answers.numbers.note(number, column));
        if let (Ok(built), Ok(same)) = (&said.built, said.same) {
            let column = if *built == call.summary { 0 } else { 1 + usize::from(said.read.is_err()) };
            answers.verdicts.note(same, column);
        }
    }

    /// Of what was built, or of what was read.
    pub fn note_pairs(&mut self, pairs: usize, read: bool) {
        self.samples += 2 * pairs as u64;
        self.answers.pairs.note(pairs.min(MOST_PAIRS), usize::from(read));
    }
}

fn number<T>(said: &Result<T, u32>) -> u32 {
    said.as_ref().err().map_or(SUCCESS, |number| *number)
}

impl Answers for OfSummaries {
    fn add(&mut self, other: &Self) {
        self.numbers.add(&other.numbers);
        self.verdicts.add(&other.verdicts);
        self.pairs.add(&other.pairs);
    }

    fn print(&self) {
        line("answer", ["building", "all pairs", "one pair", "checking"]);
        self.numbers.print(word);
        line("checked", ["its own", "another", "no summary"]);
        self.verdicts.print(|same| if same { "yes" } else { "no" }.to_string());
        line("pairs", ["built", "read"]);
        self.pairs.print(|pairs| format!("{}{pairs}", if pairs == MOST_PAIRS { ">= " } else { "" }));
    }
}
