//! Templates laid out by hand, with the samples that they hold.
use super::Call;
use crate::files::{holding, Block, File};
use crate::lent::as_bytes;
use crate::random::Random;
use crate::samples::limits;
use crate::writing::lists::{from_mid_side, woven};
use crate::writing::RATE;

/// A template, its samples, and others that fit its blocks too.
pub struct Template {
    pub file: File,
    pub samples: Vec<i32>,
    pub others: Vec<i32>,
}

/// A block's bits word and its flags.
pub type Form = (i16, u16);

impl Template {
    /// Blocks with any values that fit: `forms` says which block each channel of a group has. Padded values, last differences, padding words and bases
    /// of raw blocks have no rule.
    pub fn new(depth: u16, frames: usize, forms: impl Fn(usize) -> Vec<Form>, random: &mut Random) -> Self {
        let channels = forms(0).len() as u16;
        let file = File::new(channels, depth, RATE, frames as u32, random);
        let mut template = Template { file, samples: Vec::new(), others: Vec::new() };
        for first in (0..frames).step_by(512) {
            template.push(&forms(first / 512), 512.min(frames - first), random);
        }
        template
    }

    /// One more group. A mid and a side of one bit less than the depth are within it together.
    fn push(&mut self, forms: &[Form], active: usize, random: &mut Random) {
        let depth = self.file.depth;
        let within = if is_mid_side(forms) { depth - 1 } else { depth };
        let lists: Vec<_> = forms.iter().map(|(bits, _)| any_values(*bits, active, within, random)).collect();
        let others = forms.iter().zip(&lists).map(|((bits, _), list)| other_values(*bits, list, within, random));
        self.others.extend(heard(forms, &others.collect::<Vec<_>>()));
        self.samples.extend(heard(forms, &lists));
        let blocks = forms.iter().zip(&lists).map(|(form, list)| block(*form, depth, list, random));
        self.file.groups.push(blocks.collect());
    }

    /// The same form for all groups.
    pub fn of(depth: u16, frames: usize, forms: &[Form], random: &mut Random) -> Self {
        Template::new(depth, frames, |_| forms.to_vec(), random)
    }

    /// A template with given samples.
    pub fn with(file: File, samples: Vec<i32>) -> Self {
        Template { file, others: samples.clone(), samples }
    }

    /// With the settings of the template, and its samples.
    pub fn call(&self) -> Call {
        self.call_with(&self.samples)
    }

    pub fn call_with(&self, samples: &[i32]) -> Call {
        let File { channels, depth, rate, .. } = self.file;
        Call { samples: as_bytes(samples), channels, depth, rate, template: self.file.bytes() }
    }
}

/// A block that holds the values at the front; bits 0 is raw at the depth.
pub fn block((bits, flags): Form, depth: u16, values: &[i32], random: &mut Random) -> Block {
    let filled = holding(values, if bits == 0 { -(depth as i16) } else { bits }, false, random);
    Block { bits, flags, ..filled }
}

fn is_mid_side(forms: &[Form]) -> bool {
    forms.len() == 2 && forms[0].1 & 1 == 1
}

/// What is heard of the values that are stored.
fn heard(forms: &[Form], lists: &[Vec<i32>]) -> Vec<i32> {
    match lists {
        [mid, side] if is_mid_side(forms) => from_mid_side(mid, side),
        [left, right] => woven(left, right),
        _ => lists.concat(),
    }
}

/// Any values of a width within the depth.
fn any_values(bits: i16, active: usize, depth: u16, random: &mut Random) -> Vec<i32> {
    match bits {
        ..=0 => {
            let width = if bits == 0 { depth } else { depth.min(bits.unsigned_abs()) };
            (0..active).map(|_| random.signed(width.into())).collect()
        }
        _ => {
            let first = random.signed(depth.into());
            walk(first, |random| random.signed(bits as u32).into(), active, depth, random)
        }
    }
}

/// Others in their place. Of differences the last value is the same, so that the step from it to a padded one is the same.
fn other_values(bits: i16, values: &[i32], depth: u16, random: &mut Random) -> Vec<i32> {
    match (bits, values) {
        (1.., [.., last]) => {
            let back = |random: &mut Random| -i64::from(random.signed(bits as u32));
            let mut others = walk(*last, back, values.len(), depth, random);
            others.reverse();
            others
        }
        _ => any_values(bits, values.len(), depth, random),
    }
}

/// One step after another, as far as the depth lets them.
fn walk(first: i32, step: impl Fn(&mut Random) -> i64, active: usize, depth: u16, random: &mut Random) -> Vec<i32> {
    let (low, high) = limits(depth);
    let mut at = first;
    let mut next = || {
        let to = i64::from(at) + step(random);
        std::mem::replace(&mut at, to.clamp(low.into(), high.into()) as i32)
    };
    (0..active).map(|_| next()).collect()
}
