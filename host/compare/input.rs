//! What is compared, whatever it is: files to read, calls to encode or calls to re-encode.
use crate::families::Family;
use crate::shrink::Search;
use std::fmt::UpperHex;
use std::panic::{catch_unwind, AssertUnwindSafe};

pub trait Input: Clone + PartialEq + Send {
    type Answers: Answers;

    /// What many of them are called.
    const NAME: &'static str;
    /// What one of them is asked for by.
    const COMMAND: &'static str;

    /// The families that are run whole, and random inputs from the seed, until there are `count` in all.
    fn families(count: usize, seed: u64) -> Vec<Family<Self>>;

    /// Both sides on it.
    fn check(&self, tally: &mut Tally<Self::Answers>) -> Result<(), Difference>;

    /// In bytes.
    fn size(&self) -> usize;

    /// As small as it becomes while the two sides differ.
    fn shrink(search: &mut Search<Self>);

    /// What it is in words, and its bytes.
    fn shown(&self) -> (String, Vec<&[u8]>);
}

/// What differs, what the Rust or a document says, and what ours says.
#[derive(Clone)]
pub struct Difference {
    pub what: String,
    pub rust: String,
    pub ours: String,
}

pub fn differ<T>(what: &str, rust: &str, ours: &str) -> Result<T, Difference> {
    Err(Difference { what: what.to_string(), rust: rust.to_string(), ours: ours.to_string() })
}

/// Two lists of the same length differ: the first place where they do.
pub fn differ_in<T: PartialEq + UpperHex>(what: &str, rust: &[T], ours: &[T]) -> Result<(), Difference> {
    let at = rust.iter().zip(ours).position(|(rust, ours)| rust != ours).unwrap_or(0);
    let digits = |list: &[T]| format!("{:0width$X}", list[at], width = 2 * size_of::<T>());
    differ(&format!("{what} {at}"), &digits(rust), &digits(ours))
}

/// Samples that were read, or the refusal.
pub type Read = Result<Vec<i32>, Refused>;

pub fn same_samples(what: &str, rust: &Read, ours: &Read) -> Result<(), Difference> {
    match (rust, ours) {
        _ if rust == ours => Ok(()),
        (Ok(rust), Ok(ours)) if rust.len() == ours.len() => differ_in(&format!("{what}, sample"), rust, ours),
        _ => {
            let [rust, ours] = [rust, ours].map(|said| in_short(said, |samples| format!("{} samples", samples.len())));
            differ(what, &rust, &ours)
        }
    }
}

pub fn in_short<T>(said: &Result<T, Refused>, success: impl Fn(&T) -> String) -> String {
    match said {
        Ok(found) => success(found),
        Err((4, bits)) => format!("refused 4 with {bits}"),
        Err((number, _)) => word(*number),
    }
}

/// A panic is a difference.
pub fn calmly<T>(side: &str, call: impl FnOnce() -> T) -> Result<T, Difference> {
    catch_unwind(AssertUnwindSafe(call)).or_else(|_| differ(side, "an answer", "a panic"))
}

/// What was met.
#[derive(Default)]
pub struct Tally<A> {
    pub inputs: u64,
    pub calls: u64,
    pub fifties: u64,
    pub samples: u64,
    pub answers: A,
}

/// Which answers were met how often.
pub trait Answers: Default + Send {
    fn add(&mut self, other: &Self);
    fn print(&self);
}

impl<A: Answers> Tally<A> {
    pub fn add(&mut self, other: &Self) {
        self.inputs += other.inputs;
        self.calls += other.calls;
        self.fifties += other.fifties;
        self.samples += other.samples;
        self.answers.add(&other.answers);
    }
}

/// The number that stands for success: it is no refusal's.
pub const SUCCESS: u32 = 0;

/// Document 01's number, and the bits word where that is 4.
pub type Refused = (u32, i16);

pub fn word(number: u32) -> String {
    match number {
        SUCCESS => "success".to_string(),
        _ => format!("refused {number}"),
    }
}
