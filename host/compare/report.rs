//! What is printed.
use crate::input::{Answers, Difference, Input, Tally};
use crate::run::{Found, Run};
use crate::shrink::shrink;

/// The most bytes of an input that are printed.
const MOST_PRINTED: usize = 4096;

pub fn table<I: Input>(run: &Run<I>) {
    for (name, count) in &run.families {
        println!("{name:>10}: {count} {}", I::NAME);
    }
    println!("{} {}, {} calls of ours, {} samples", run.tally.inputs, I::NAME, run.tally.calls, run.tally.samples);
    answers(&run.tally);
}

fn answers<A: Answers>(tally: &Tally<A>) {
    tally.answers.print();
    println!("  refused 50 by {} calls with too little room", tally.fifties);
}

pub fn one<A: Answers>(tally: &Tally<A>, difference: Option<&Difference>) {
    answers(tally);
    match difference {
        Some(difference) => print(difference),
        None => println!("0 differences"),
    }
}

pub fn print(difference: &Difference) {
    println!("{}: the Rust or a document: {}; ours: {}", difference.what, difference.rust, difference.ours);
}

/// The difference, and the smallest input that shows one.
pub fn found<I: Input>(found: &Found<I>, seed: u64) {
    println!("again: {} --input {} {} {seed}", I::COMMAND, found.family, found.index);
    print(&found.difference);
    let (input, difference) = shrink(&found.input, &found.difference);
    let (words, lists) = input.shown();
    println!("the smallest input found has {words}:");
    print(&difference);
    lists.into_iter().for_each(in_digits);
}

fn in_digits(bytes: &[u8]) {
    let digits = |byte: &u8| format!("{byte:02X}");
    println!("{}", bytes.iter().take(MOST_PRINTED).map(digits).collect::<Vec<_>>().join(" "));
    if bytes.len() > MOST_PRINTED {
        println!("and {} bytes more", bytes.len() - MOST_PRINTED);
    }
}
