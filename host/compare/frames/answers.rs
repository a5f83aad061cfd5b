//! How many ranges met each answer.
use super::mended::touched;
use super::Call;
use crate::input::{word, Answers, SUCCESS};
use crate::located::Refused;
use crate::reading::sides::Said;
use crate::refusals::Places;
use crate::table::{line, Table};

pub type Tally = crate::input::Tally<OfRanges>;

/// More groups than so many are counted with these.
const MOST_GROUPS: u32 = 5;

#[derive(Default)]
pub struct OfRanges {
    /// By number: the whole file decodes, it is refused by the same, it is refused otherwise.
    numbers: Table<u32, 3>,
    places: Places,
    /// By how many groups are touched, of those that are read: from a border to a border or the end, from a border, to one, neither.
    touched: Table<u32, 4>,
    /// Other files that agree on what is looked at, and those of them that have a byte that differs.
    others: Table<&'static str, 2>,
}

impl Tally {
    pub fn note(&mut self, call: &Call, whole: &Said, said: &Result<Vec<i32>, Refused>) {
        self.inputs += 1;
        let number = said.as_ref().err().map_or(SUCCESS, |refused| refused.number);
        let column = match &whole.decoded {
            Ok(_) => 0,
            Err(refused) if refused.0 == number => 1,
            Err(_) => 2,
        };
        self.answers.numbers.note(number, column);
        self.answers.places.note(said.as_ref().err().copied());
        if let (Ok(samples), Ok(opened)) = (said, &whole.opened) {
            self.samples += samples.len() as u64;
            let within = |frame: u64| frame % 512 != 0 && frame != u64::from(opened.frames);
            let column = 2 * usize::from(within(call.first.into())) + usize::from(within(call.end()));
            self.answers.touched.note((touched(call.first, call.count).len() as u32).min(MOST_GROUPS), column);
        }
    }
}

impl OfRanges {
    pub fn note_other(&mut self, file: &[u8], other: &[u8]) {
        self.others.note("other files", usize::from(file == other));
    }
}

impl Answers for OfRanges {
    fn add(&mut self, other: &Self) {
        self.numbers.add(&other.numbers);
        self.places.add(&other.places);
        self.touched.add(&other.touched);
        self.others.add(&other.others);
    }

    /// The answers beside the whole file's; where they are; the groups that are touched; the files that are changed where it does not matter.
    fn print(&self) {
        line("whole file", ["decodes", "refused so", "otherwise"]);
        self.numbers.print(word);
        self.places.print();
        line("groups read", ["whole", "to within", "from within", "both"]);
        self.touched.print(|groups| format!("{}{groups}", if groups == MOST_GROUPS { ">= " } else { "" }));
        line("", ["changed", "the same"]);
        self.others.print(str::to_string);
    }
}
