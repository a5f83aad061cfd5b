//! How often each question was answered by each number, and what the program must print of it.
use std::collections::BTreeMap;

#[derive(Clone, Copy, PartialEq, Eq, PartialOrd, Ord, Debug)]
pub enum Asked {
    Opening,
    Decoding,
    Stepping,
    Encoding,
    Reencoding,
    Frames,
    Building,
    Pair,
    Pairs,
    Checking,
}

const ALL: [Asked; 10] = [
    Asked::Opening,
    Asked::Decoding,
    Asked::Stepping,
    Asked::Encoding,
    Asked::Reencoding,
    Asked::Frames,
    Asked::Building,
    Asked::Pair,
    Asked::Pairs,
    Asked::Checking,
];

/// What the program calls each of them.
const NAMES: [&str; 10] = [
    "opening",
    "decoding",
    "stepping",
    "encoding",
    "re-encoding",
    "reading frames",
    "building peaks",
    "reading a peak",
    "reading peaks",
    "checking peaks",
];

impl Asked {
    /// The kind of its items.
    pub fn kind(self) -> u8 {
        16 + self as u8
    }

    fn of_kind(kind: u8) -> Self {
        ALL[usize::from(kind) - 16]
    }
}

#[derive(Default)]
pub struct Tally {
    counts: BTreeMap<(Asked, u8), usize>,
    /// How many are false on purpose.
    on_purpose: usize,
}

impl Tally {
    pub fn count(&mut self, asked: Asked, number: u8, on_purpose: bool) {
        match on_purpose {
            true => self.on_purpose += 1,
            false => *self.counts.entry((asked, number)).or_insert(0) += 1,
        }
    }

    /// Of kinds and numbers.
    pub fn of(answers: &[(u8, u8, bool)]) -> Self {
        let mut tally = Tally::default();
        answers.iter().for_each(|(kind, number, on_purpose)| tally.count(Asked::of_kind(*kind), *number, *on_purpose));
        tally
    }

    fn times(&self, asked: Asked, number: u8) -> usize {
        self.counts.get(&(asked, number)).copied().unwrap_or(0)
    }

    /// What a run can be answered by, and this list is not.
    pub fn missing(&self) -> Vec<(Asked, u8)> {
        let all = REACHED.iter().flat_map(|(asked, numbers)| numbers.iter().map(|number| (*asked, *number)));
        all.filter(|(asked, number)| self.times(*asked, *number) == 0).collect()
    }

    pub fn text(&self) -> String {
        let lines: String = ALL.iter().map(|asked| self.line(*asked)).collect();
        let (answers, on_purpose) = (self.counts.values().sum::<usize>(), self.on_purpose);
        let last = format!("{on_purpose} false ones on purpose, {on_purpose} found\n");
        format!("{lines}{answers} answers as recorded, 0 others\n{last}")
    }

    fn line(&self, asked: Asked) -> String {
        let name = NAMES[asked as usize];
        let done = match self.times(asked, 255) {
            0 => String::new(),
            times => format!(", done {times}"),
        };
        let refused: Vec<String> = (1..255)
            .filter(|number| self.times(asked, *number) > 0)
            .map(|number| format!(" {number}: {}", self.times(asked, number)))
            .collect();
        let refused = if refused.is_empty() { String::new() } else { format!(", refused{}", refused.join(",")) };
        format!("{name}: accepted {}{done}{refused}\n", self.times(asked, 0))
    }
}

/// Every number that a run can reach: 33 and 37 take more samples than there is room for.
#[rustfmt::skip]
const REACHED: [(Asked, &[u8]); 10] = [
    (Asked::Opening, &[0, 1, 2, 3, 10, 11, 12, 13, 14, 15, 16, 17, 18, 19]),
    (Asked::Decoding, &[0, 1, 2, 3, 4, 10, 11, 12, 13, 14, 15, 16, 17, 18, 19, 20, 21, 22, 50]),
    (Asked::Stepping, &[0, 255, 1, 2, 3, 4, 10, 11, 12, 13, 14, 15, 16, 17, 18, 19, 20, 21, 22, 50]),
    (Asked::Encoding, &[0, 30, 31, 32, 34, 35, 38, 39, 50]),
    (Asked::Reencoding, &[0, 1, 2, 3, 4, 30, 31, 32, 34, 35, 36, 39, 40, 41, 42, 43, 44, 45, 46, 50]),
    (Asked::Frames, &[0, 1, 2, 3, 4, 10, 11, 12, 13, 14, 15, 16, 17, 18, 19, 20, 21, 22, 50, 51]),
    (Asked::Building, &[0, 1, 2, 3, 4, 10, 11, 12, 13, 14, 15, 16, 17, 18, 19, 20, 21, 22, 50, 66]),
    (Asked::Pair, &[0, 10, 50, 60, 61, 62, 63, 64, 67]),
    (Asked::Pairs, &[0, 10, 50, 60, 61, 62, 63, 64]),
    (Asked::Checking, &[0, 1, 2, 3, 4, 10, 11, 12, 13, 14, 15, 16, 17, 18, 19, 20, 21, 22, 66]),
];
