//! How many misfits were met: values and differences, by their place, their group and their channel.
use crate::misfit::{Misfit, Of};
use crate::table::{line, Table};

/// Where in the blocks of its kind.
#[derive(Clone, Copy, PartialEq, Eq, PartialOrd, Ord)]
enum Place {
    First,
    Between,
    Last,
}

#[derive(Default)]
pub struct Misfits(Table<(Of, Place), 4>);

impl Misfits {
    pub fn note(&mut self, misfit: &Misfit) {
        let later = if misfit.group == 0 { 0 } else { 2 };
        self.0.note((misfit.of, place(misfit)), later + misfit.channel);
    }

    pub fn add(&mut self, other: &Self) {
        self.0.add(&other.0);
    }

    /// In the first group by channel, and in later ones.
    pub fn print(&self) {
        line("36", ["first, 0", "first, 1", "later, 0", "later, 1"]);
        self.0.print(word);
    }
}

/// The last difference of a block is the template's own, so that the last that may miss is the one before it.
fn place(misfit: &Misfit) -> Place {
    match (misfit.place, misfit.of) {
        (0, _) => Place::First,
        (511, _) | (510, Of::Difference | Of::ToPadded) => Place::Last,
        _ => Place::Between,
    }
}

fn word((of, place): (Of, Place)) -> String {
    let of = match of {
        Of::RawValue => "raw",
        Of::Difference => "step",
        Of::ToPadded => "pad",
    };
    format!("{of} {}", ["0", "between", "last"][place as usize])
}
