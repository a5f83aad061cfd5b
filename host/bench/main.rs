//! The Rust original and ours, timed in turns on the same files or samples:
//! bench [encode|reencode|wide|frames|floats|peaks] [--short]
#[allow(dead_code)]
#[path = "../recorded/blocks.rs"]
mod blocks;
mod clock;
mod decoding;
mod encoding;
mod few_frames;
#[allow(dead_code)]
#[path = "../definitions/files.rs"]
mod files;
mod floats;
mod input;
#[path = "../definitions/nans.rs"]
mod nans;
mod peaks;
#[allow(dead_code)]
#[path = "../definitions/random.rs"]
mod random;
mod reencoding;
mod rows;
mod writing;

use input::Input;
use rows::Row;

/// What is timed. The sides are the original, ours into lent room, ours as a drop-in, and any others.
struct Work {
    rows: fn(usize) -> Vec<Row>,
    input: fn(&Row) -> Input,
    /// The columns of the sides.
    sides: &'static str,
    /// Whether all sides give the same.
    agree: fn(&Input) -> Result<(), &'static str>,
    /// The least time of each side in so many turns.
    times: fn(&Input, usize) -> Vec<f64>,
}

const DECODING: Work = Work {
    rows: rows::of_files,
    input: Input::of,
    sides: "Rust | lent | drop-in | copy",
    agree: decoding::agree,
    times: decoding::times,
};

const ENCODING: Work = Work {
    rows: rows::to_encode,
    input: Input::of,
    sides: "Rust | lent | drop-in",
    agree: |input| encoding::SIDES.agree(input),
    times: |input, turns| encoding::SIDES.times(input, turns),
};

const REENCODING: Work = Work {
    rows: rows::of_files,
    input: Input::to_reencode,
    sides: "Rust | lent | drop-in",
    agree: |input| reencoding::SIDES.agree(input),
    times: |input, turns| reencoding::SIDES.times(input, turns),
};

const WIDE: [(&str, Work); 2] =
    [("Encoding", Work { rows: rows::wide, ..ENCODING }), ("Decoding", Work { rows: rows::wide, ..DECODING })];

const SHORT: [usize; 1] = [10];
const ALL: [usize; 2] = [10, 600];

fn main() {
    let args: Vec<String> = std::env::args().skip(1).collect();
    match args.iter().map(String::as_str).collect::<Vec<_>>()[..] {
        [] => DECODING.run(&ALL),
        ["--short"] => DECODING.run(&SHORT),
        ["encode"] => ENCODING.run(&ALL),
        ["encode", "--short"] | ["--short", "encode"] => ENCODING.run(&SHORT),
        ["reencode"] => REENCODING.run(&ALL),
        ["reencode", "--short"] | ["--short", "reencode"] => REENCODING.run(&SHORT),
        ["wide"] | ["wide", "--short"] | ["--short", "wide"] => run_wide(),
        ["frames"] => few_frames::run(&ALL[1..]),
        ["frames", "--short"] | ["--short", "frames"] => few_frames::run(&SHORT),
        ["floats"] => floats::WORK.run(&ALL),
        ["floats", "--short"] | ["--short", "floats"] => floats::WORK.run(&SHORT),
        ["peaks"] => peaks::run(&ALL[1..]),
        ["peaks", "--short"] | ["--short", "peaks"] => peaks::run(&SHORT),
        _ => stop("usage: bench [encode|reencode|wide|frames|floats|peaks] [--short]"),
    };
}

fn run_wide() {
    for (title, work) in &WIDE {
        println!("{title}, of settings that the original's encoder refuses.");
        work.run(&SHORT);
        println!();
    }
}

impl Work {
    /// Prints the table of all rows of so many seconds each.
    fn run(&self, lengths: &[usize]) {
        let rows: Vec<Row> = lengths.iter().flat_map(|seconds| (self.rows)(*seconds)).collect();
        println!("Million samples a second, 4 bytes each, the best of several turns. Ratios are to the Rust.\n");
        println!("| length | form | depth | width | {} | lent ratio | drop-in ratio |", self.sides);
        println!("|{}", "---|".repeat(7 + self.sides.split('|').count() - 1));
        rows.iter().for_each(|row| self.measure(row));
    }

    /// Prints a row's line.
    fn measure(&self, row: &Row) {
        let input = (self.input)(row);
        if let Err(words) = (self.agree)(&input) {
            stop(&format!("{row:?}: {words}"));
        }
        let times = (self.times)(&input, if row.seconds > 60 { 3 } else { 11 });
        let rates = times.iter().map(|time| format!("{:.0} |", input.samples.len() as f64 / time / 1e6));
        let ratios = [times[0] / times[1], times[0] / times[2]];
        println!("| {row} | {} {:.2} | {:.2} |", rates.collect::<Vec<_>>().join(" "), ratios[0], ratios[1]);
    }
}

fn stop(words: &str) -> ! {
    eprintln!("{words}");
    std::process::exit(2)
}
