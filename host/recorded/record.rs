//! Writes what the programs read and must print, or says whether it stands as it would be written.
mod answers;
#[allow(dead_code)]
#[path = "../definitions/asking.rs"]
mod asking;
mod beyond;
#[allow(dead_code)]
mod blocks;
mod cases;
mod chains;
mod draw;
#[path = "../definitions/encoded.rs"]
mod encoded;
mod encodings;
#[allow(dead_code)]
#[path = "../definitions/faults.rs"]
mod faults;
#[allow(dead_code)]
#[path = "../definitions/few_frames.rs"]
mod few_frames;
#[allow(dead_code)]
#[path = "../definitions/files.rs"]
mod files;
#[path = "../definitions/inputs.rs"]
mod inputs;
mod lies;
mod lines;
mod list;
#[allow(dead_code)]
#[path = "../compare/writing/lists.rs"]
mod lists;
#[path = "../definitions/located.rs"]
mod located;
#[allow(dead_code)]
#[path = "../definitions/misfit.rs"]
mod misfit;
mod misfits;
mod noisy;
#[path = "../definitions/orders.rs"]
mod orders;
mod pairs;
#[allow(dead_code)]
#[path = "../definitions/peaks.rs"]
mod peaks;
mod places;
#[path = "../definitions/random.rs"]
mod random;
mod ranges;
mod recording;
mod reread;
#[path = "../definitions/samples.rs"]
mod samples;
mod summaries;
mod tally;
mod tape;
mod templates;
mod traps;
mod walks;
#[path = "../definitions/widened.rs"]
mod widened;

use reread::reread;
use std::fs;
use std::path::Path;
use tally::Tally;

/// A path under crates/, and what stands there.
type Recorded = (String, Vec<u8>);

fn main() {
    let args: Vec<String> = std::env::args().skip(1).collect();
    match args.iter().map(String::as_str).collect::<Vec<_>>()[..] {
        ["write", crates] => write(&recorded(), Path::new(crates)),
        ["check", crates] => check(&recorded(), Path::new(crates)),
        ["list"] => show(),
        _ => stop("usage: record write CRATES | record check CRATES | record list"),
    }
}

fn stop(message: &str) -> ! {
    eprintln!("{message}");
    std::process::exit(2);
}

// ---- what is recorded

fn recorded() -> Vec<Recorded> {
    opened().into_iter().chain(opened_by_name()).chain(remastered()).chain(answers_listed()).collect()
}

fn opened() -> [Recorded; 2] {
    let file = cases::one_sample();
    let text = lines::of_input(&file);
    [("ncw_open/stdin".to_string(), file), ("ncw_open/stdout".to_string(), text.into_bytes())]
}

/// The files that `ncw_open_files` is given, their names, and what it prints of them, one after another.
fn opened_by_name() -> Vec<Recorded> {
    let files = [
        ("refused.ncw", cases::short_group(1, &mut random::Random::new(1))),
        ("float.ncw", padded(cases::float_pairs(), lines::MOST)),
        ("large", padded(cases::float_pairs(), lines::MOST + 1)),
    ];
    let names: String = files.iter().map(|(name, _)| format!("{name}\n")).collect();
    let text: String = files.iter().map(|(_, file)| lines::of_input(file)).collect();
    let given = files.into_iter().map(|(name, file)| (format!("ncw_open_files/data/{name}"), file));
    let beside = [("ncw_open_files/args".to_string(), names), ("ncw_open_files/stdout".to_string(), text)];
    given.chain(beside.map(|(path, text)| (path, text.into_bytes()))).collect()
}

fn remastered() -> [Recorded; 2] {
    let (file, text) = recording::recorded();
    [("remaster/data/recording.ncw".to_string(), file), ("remaster/stdout".to_string(), text.into_bytes())]
}

fn answers_listed() -> [Recorded; 2] {
    let (bytes, tape) = list::whole().ended();
    let text = tape.tally.text();
    let again = Tally::of(&reread(&bytes, |question| Some(answers::to(question))));
    assert_eq!(text, again.text(), "the list read back");
    let missing = tape.tally.missing();
    assert!(missing.is_empty(), "numbers that were not met: {missing:?}");
    let unplaced = places::missing(&tape);
    assert!(unplaced.is_empty(), "places that were not met: {unplaced:?}");
    let traps = traps::table(&tape.cases);
    traps.iter().for_each(|(trap, items)| assert!(!items.is_empty(), "no case of: {trap}"));
    [("replay/data/answers".to_string(), bytes), ("replay/stdout".to_string(), text.into_bytes())]
}

/// So many bytes, with zeros after the data.
fn padded(mut file: files::File, length: usize) -> Vec<u8> {
    file.tail = vec![0; length - file.bytes().len()];
    file.bytes()
}

// ---- what is done with it

fn write(all: &[Recorded], crates: &Path) {
    for (name, bytes) in all {
        let path = crates.join(name);
        let folder = path.parent().expect("a folder");
        let wrote = fs::create_dir_all(folder).and_then(|()| fs::write(&path, bytes));
        wrote.unwrap_or_else(|error| stop(&format!("{}: {error}", path.display())));
        println!("{name}: {} bytes", bytes.len());
    }
}

fn check(all: &[Recorded], crates: &Path) {
    let differs = |(name, bytes): &&Recorded| {
        let same = fs::read(crates.join(name)).is_ok_and(|old| old == *bytes);
        println!("{name}: {}", if same { "as recorded" } else { "DIFFERS" });
        !same
    };
    if all.iter().filter(differs).count() > 0 {
        std::process::exit(1);
    }
}

/// Each case of the list: the item it begins with, its name, and its answers; then the items of the cases that hold each trap.
fn show() {
    let tape = list::whole();
    tape.cases.iter().for_each(|case| println!("{}: {}: {}", case.item, case.name, case.answers.join("; ")));
    traps::table(&tape.cases).iter().for_each(|(trap, items)| println!("{trap}: {items:?}"));
    print!("{}", tape.tally.text());
}
