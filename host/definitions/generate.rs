//! Makes cases from a seed, asks the Rust original, and writes for each what the definitions must say.
mod antt;
mod any_settings;
mod asking;
mod encoded;
mod expected;
mod faults;
#[allow(dead_code)]
mod few_frames;
mod files;
mod inputs;
#[allow(dead_code)]
mod located;
#[allow(dead_code)]
mod misfit;
mod orders;
mod random;
mod ranges;
mod samples;
mod widened;

use antt::Numbered;
use asking::{Answer, Question};
use expected::ask;
use std::collections::{BTreeMap, BTreeSet};
use std::fs;
use std::path::Path;

type Case = (Question, Answer);

/// Cases to a module.
const TOGETHER: usize = 25;

/// One case of so many is an encoding with any settings.
const ONE_OF_ANY_SETTINGS: usize = 8;

/// Cases that are shown whole.
const SHOWN: usize = 5;

fn main() {
    let args: Vec<String> = std::env::args().skip(1).collect();
    let word = |k: usize| args.get(k).map(String::as_str).unwrap_or_else(|| usage());
    let number = |k: usize| word(k).parse::<u64>().unwrap_or_else(|_| usage());
    let cases = cases(number(1).max(1) as usize, number(2));
    match word(0) {
        "all" => write_all(&cases, Path::new(word(3)), Path::new(word(4))),
        "closer" => write_closer(&chosen(&cases, word(3)), Path::new(word(4))),
        "show" => show(chosen(&cases, word(3))),
        _ => usage(),
    }
}

fn usage() -> ! {
    eprintln!("usage: generate all COUNT SEED FORMAT OUT");
    eprintln!("       generate closer COUNT SEED 'CASE CASE ..' OUT");
    eprintln!("       generate show COUNT SEED 'CASE CASE ..'");
    std::process::exit(2);
}

fn cases(count: usize, seed: u64) -> Vec<Case> {
    let (mut maker, mut any_settings) = (inputs::Maker::new(seed), any_settings::Maker::new(seed));
    let case = |k: usize| {
        let question = match k % ONE_OF_ANY_SETTINGS {
            0 => any_settings.question(),
            _ => maker.question(),
        };
        let answer = ask(&question);
        (question, answer)
    };
    (0..count).map(case).collect()
}

fn numbered(cases: &[Case]) -> Vec<Numbered<'_>> {
    cases.iter().enumerate().map(|(k, (question, answer))| (k, question, answer)).collect()
}

fn chosen<'a>(cases: &'a [Case], numbers: &str) -> Vec<Numbered<'a>> {
    let numbers: Vec<&str> = numbers.split_whitespace().collect();
    numbered(cases).into_iter().filter(|(k, ..)| numbers.contains(&k.to_string().as_str())).collect()
}

// ---- what is written

/// The tests and all cases, in the folder `out`; then the counts.
fn write_all(cases: &[Case], format: &Path, out: &Path) {
    save(out, "Tests", &antt::tests(format));
    let mut names = vec!["Tests".to_string()];
    for (k, part) in numbered(cases).chunks(TOGETHER).enumerate() {
        names.push(format!("Cases{k}"));
        save(out, &names[k + 1], &antt::module(part, true));
    }
    save_root(out, &names);
    count(cases);
}

/// Some cases, each with the theorem that its test comes out false: a difference, and not merely undecided.
fn write_closer(chosen: &[Numbered], out: &Path) {
    save(out, "Closer", &antt::module(chosen, false));
    save_root(out, &["Tests".to_string(), "Closer".to_string()]);
}

fn save(out: &Path, name: &str, text: &str) {
    let path = out.join(format!("{name}.antt"));
    fs::write(&path, text).unwrap_or_else(|error| panic!("{}: {error}", path.display()));
}

fn save_root(out: &Path, names: &[String]) {
    save(out, "Lib", &names.iter().map(|name| format!("pub mod {name}\n")).collect::<String>());
}

// ---- what is printed

fn count(cases: &[Case]) {
    for kind in ["open", "decode", "encode", "re-encode"] {
        let of_kind = || cases.iter().filter(|(question, _)| kind_of(question) == kind);
        let refused = of_kind().filter(|(_, answer)| matches!(answer, Answer::Refused(..)));
        println!("{kind}: {} cases, {} of them refused", of_kind().count(), refused.count());
    }
    let refused_30: Vec<&Case> = cases.iter().filter(|(question, _)| is_30_by_original(question)).collect();
    let written = refused_30.iter().filter(|(_, answer)| matches!(answer, Answer::Bytes(_))).count();
    println!("encode, where the original refuses by 30: {} cases, {written} of them written", refused_30.len());
    println!("refused, number x times: {}", times(cases.iter().filter_map(refused)));
    let ranges: Vec<_> = numbered(cases).into_iter().flat_map(|(k, question, _)| ranges::ranges(k, question)).collect();
    let refused = ranges.iter().filter_map(|(_, _, said)| said.as_ref().err()).map(|refused| refused.number);
    println!("a few frames: {} ranges; refused, number x times: {}", ranges.len(), times(refused));
    println!("bits words read: {} of the 65 from -32 to 32", bits_words(cases).len());
}

fn is_30_by_original(question: &Question) -> bool {
    matches!(question, Question::Encode(..)) && matches!(asking::ask(question), Answer::Refused(30, _))
}

fn refused((_, answer): &Case) -> Option<u32> {
    match answer {
        Answer::Refused(number, _) => Some(*number),
        _ => None,
    }
}

fn times(numbers: impl Iterator<Item = u32>) -> String {
    let mut times = BTreeMap::new();
    numbers.for_each(|number| *times.entry(number).or_insert(0) += 1);
    times.iter().map(|(number, times)| format!("{number} x {times}")).collect::<Vec<_>>().join(", ")
}

fn bits_words(cases: &[Case]) -> BTreeSet<i16> {
    let words = |case: &Case| match case {
        (Question::Decode(file), Answer::Samples(_)) => files::bits_words(file),
        _ => Vec::new(),
    };
    cases.iter().flat_map(words).collect()
}

fn kind_of(question: &Question) -> &'static str {
    match question {
        Question::Open(_) => "open",
        Question::Decode(_) => "decode",
        Question::Encode(..) => "encode",
        Question::Reencode(..) => "re-encode",
    }
}

/// The smallest inputs, bytes in hexadecimal, and what was expected.
fn show(mut chosen: Vec<Numbered>) {
    chosen.sort_by_key(|(_, question, _)| size(question));
    for (k, question, answer) in chosen.iter().take(SHOWN) {
        println!("case {k}: {}", asked(question));
        println!("  expected: {}", answered(answer));
    }
}

fn size(question: &Question) -> usize {
    match question {
        Question::Open(file) | Question::Decode(file) => file.len(),
        Question::Encode(_, _, samples) => samples.len(),
        Question::Reencode(_, samples, template) => samples.len() + template.len(),
    }
}

fn asked(question: &Question) -> String {
    let kind = kind_of(question);
    match question {
        Question::Open(file) | Question::Decode(file) => format!("{kind} {}", hex(file)),
        Question::Encode(spec, mode, samples) => {
            format!("{kind} {spec:?}, {mode:?}, samples {samples:?}")
        }
        Question::Reencode(spec, samples, template) => {
            format!("{kind} {spec:?}, samples {samples:?}, template {}", hex(template))
        }
    }
}

fn answered(answer: &Answer) -> String {
    match answer {
        Answer::Refused(4, word) => format!("refused 4, bits word {word}"),
        Answer::Refused(36, place) => format!("refused 36, place {place}"),
        Answer::Refused(number, _) => format!("refused {number}"),
        Answer::Opened(numbers) => format!("opened {numbers:?}"),
        Answer::Samples(samples) => format!("read {samples:?}"),
        Answer::Bytes(bytes) => format!("wrote {}", hex(bytes)),
    }
}

fn hex(bytes: &[u8]) -> String {
    bytes.iter().map(|byte| format!("{byte:02X}")).collect()
}
