//! The Rust original and ours on the same inputs.
#![cfg_attr(fuzzed, no_main, allow(dead_code))]

#[cfg(fuzzed)]
extern crate asking;
#[cfg(not(fuzzed))]
#[allow(dead_code)]
#[path = "../definitions/asking.rs"]
mod asking;
#[allow(dead_code)]
#[path = "../recorded/blocks.rs"]
mod blocks;
#[cfg(not(planted))]
mod boundary;
#[cfg(planted)]
#[path = "planted/boundary.rs"]
mod boundary;
mod changed;
mod crash;
#[path = "../definitions/encoded.rs"]
mod encoded;
mod encoding;
mod errors;
mod families;
#[allow(dead_code)]
#[path = "../definitions/faults.rs"]
mod faults;
#[path = "../definitions/few_frames.rs"]
mod few_frames;
#[allow(dead_code)]
#[path = "../definitions/files.rs"]
mod files;
mod frames;
#[cfg(fuzzed)]
#[path = "../fuzz/mod.rs"]
mod fuzz;
mod input;
#[path = "../definitions/inputs.rs"]
mod inputs;
mod lent;
mod limits;
#[allow(dead_code)]
#[path = "../definitions/located.rs"]
mod located;
#[path = "../definitions/misfit.rs"]
mod misfit;
#[path = "../definitions/orders.rs"]
mod orders;
mod parts;
mod peaks;
mod picks;
#[path = "../definitions/random.rs"]
mod random;
mod reading;
mod reencoding;
mod refusals;
mod report;
mod run;
#[path = "../definitions/samples.rs"]
mod samples;
mod shrink;
mod simpler;
#[path = "../definitions/peaks.rs"]
mod summaries;
mod table;
mod writing;

use input::{Input, Tally};
use std::process::exit;
use std::str::FromStr;
use std::time::{Instant, SystemTime, UNIX_EPOCH};

const COUNT: usize = 2_000_000;

const USAGE: &str = "\
usage: compare [COUNT] [SEED] | compare --file FILE | compare --input FAMILY INDEX [SEED]
       compare encode [COUNT] [SEED] | compare encode --input FAMILY INDEX [SEED]
       compare encode --samples FILE CHANNELS DEPTH RATE MODE
       compare reencode [COUNT] [SEED] | compare reencode --input FAMILY INDEX [SEED]
       compare reencode --call SAMPLES TEMPLATE CHANNELS DEPTH RATE
       compare frames [COUNT] [SEED] | compare frames --input FAMILY INDEX [SEED]
       compare frames --range FILE FIRST COUNT
       compare peaks [COUNT] [SEED] | compare peaks --input FAMILY INDEX [SEED]
       compare peaks --call SUMMARY FILE GROUP CHANNEL
       compare limits";

fn main() {
    crash::watch();
    let args: Vec<String> = std::env::args().skip(1).collect();
    let same = match args.iter().map(String::as_str).collect::<Vec<_>>()[..] {
        ["--file", path] => one(&bytes_of(path)),
        ["encode", "--samples", path, channels, depth, rate, mode] => one(&encoding::Call {
            samples: bytes_of(path),
            channels: number(channels),
            depth: number(depth),
            rate: number(rate),
            mode: number(mode),
        }),
        ["encode", ref words @ ..] => asked::<encoding::Call>(words),
        ["reencode", "--call", samples, template, channels, depth, rate] => one(&reencoding::Call {
            samples: bytes_of(samples),
            channels: number(channels),
            depth: number(depth),
            rate: number(rate),
            template: bytes_of(template),
        }),
        ["reencode", ref words @ ..] => asked::<reencoding::Call>(words),
        ["frames", "--range", path, first, count] => {
            one(&frames::Call { file: bytes_of(path), first: number(first), count: number(count) })
        }
        ["frames", ref words @ ..] => asked::<frames::Call>(words),
        ["peaks", "--call", summary, file, group, channel] => one(&peaks::Call {
            summary: bytes_of(summary),
            file: bytes_of(file),
            group: number(group),
            channel: number(channel),
        }),
        ["peaks", ref words @ ..] => asked::<peaks::Call>(words),
        ["limits"] => limits::run(),
        ref words => asked::<Vec<u8>>(words),
    };
    exit(if same { 0 } else { 1 });
}

fn stop(message: &str) -> ! {
    eprintln!("{message}");
    exit(2);
}

fn number<N: FromStr>(word: &str) -> N {
    word.parse().unwrap_or_else(|_| stop(USAGE))
}

fn bytes_of(path: &str) -> Vec<u8> {
    std::fs::read(path).unwrap_or_else(|error| stop(&format!("{path}: {error}")))
}

/// A run, or one input of a run.
fn asked<I: Input>(words: &[&str]) -> bool {
    match *words {
        ["--input", family, index] => one(&input::<I>(family, number(index), 0)),
        ["--input", family, index, seed] => one(&input::<I>(family, number(index), number(seed))),
        [] => all::<I>(COUNT, any_seed()),
        [count] => all::<I>(number(count), any_seed()),
        [count, seed] => all::<I>(number(count), number(seed)),
        _ => stop(USAGE),
    }
}

fn any_seed() -> u64 {
    SystemTime::now().duration_since(UNIX_EPOCH).map_or(1, |since| since.as_secs())
}

fn input<I: Input>(family: &str, index: usize, seed: u64) -> I {
    let families = I::families(usize::MAX, seed);
    match families.iter().find(|known| known.name == family && index < known.count()) {
        Some(known) => known.input(index),
        None => stop("There is no such input."),
    }
}

/// Whether both sides are the same on all the inputs.
fn all<I: Input>(count: usize, seed: u64) -> bool {
    println!("seed {seed}, {count} {} asked for", I::NAME);
    let begun = Instant::now();
    let run = run::run(&I::families(count, seed));
    report::table(&run);
    println!("{} s", begun.elapsed().as_secs());
    println!("{} differences", run.found.len());
    if let Some(found) = run.found.first() {
        report::found(found, seed);
    }
    run.found.is_empty()
}

/// Whether both sides are the same on an input.
fn one<I: Input>(input: &I) -> bool {
    let mut tally = Tally::default();
    let difference = input.check(&mut tally).err();
    report::one(&tally, difference.as_ref());
    difference.is_none()
}
