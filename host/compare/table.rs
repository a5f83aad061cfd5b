//! How often something was met, by rows and columns.
use std::collections::BTreeMap;

pub struct Table<R, const COLUMNS: usize>(BTreeMap<R, [u64; COLUMNS]>)
where
    R: Copy + Ord;

impl<R: Copy + Ord, const COLUMNS: usize> Default for Table<R, COLUMNS> {
    fn default() -> Self {
        Table(BTreeMap::new())
    }
}

impl<R: Copy + Ord, const COLUMNS: usize> Table<R, COLUMNS> {
    /// What is beyond the last column is counted there.
    pub fn note(&mut self, row: R, column: usize) {
        self.row(row)[column.min(COLUMNS - 1)] += 1;
    }

    pub fn add(&mut self, other: &Self) {
        for (row, times) in &other.0 {
            self.row(*row).iter_mut().zip(times).for_each(|(sum, times)| *sum += times);
        }
    }

    fn row(&mut self, row: R) -> &mut [u64; COLUMNS] {
        self.0.entry(row).or_insert([0; COLUMNS])
    }

    pub fn print(&self, name: impl Fn(R) -> String) {
        self.0.iter().for_each(|(row, times)| line(&name(*row), *times));
    }
}

pub fn line<T: ToString, const COLUMNS: usize>(name: &str, cells: [T; COLUMNS]) {
    println!("{name:>12}{}", cells.map(|cell| format!(" {:>10}", cell.to_string())).concat());
}

/// A row for blocks: raw ones come last, and the narrow ones first.
pub type Width = (bool, u16);

pub fn width_of(bits: i16) -> Width {
    (bits < 0, bits.unsigned_abs())
}

pub fn width_word((raw, width): Width) -> String {
    match raw {
        true => format!("raw {width}"),
        false => width.to_string(),
    }
}
