//! The cases as antt text: for each a test, and the theorem that it comes out true.
use crate::asking::{Answer, Question};
use crate::located::{self, Refused};
use crate::ranges::{ranges, Range};
use ncw::{PcmSpec, StereoMode};
use std::fs;
use std::path::Path;

/// A case's number, what was asked, and what is expected.
pub type Numbered<'a> = (usize, &'a Question, &'a Answer);

const TESTS: &str = include_str!("Tests.antt.in");

// ---- the tests

/// The module `Tests`, for the definitions and the refusals that the crate has now.
pub fn tests(format: &Path) -> String {
    let modules = modules(&format.join("specs"));
    let refusals = refusals(&read(&format.join("src/refusals.rt")));
    TESTS
        .replace("@USES@", &lines(&modules, |(name, defined)| uses(name, defined)))
        .replace("@REFUSALS@", &refusals.iter().map(|(name, _)| name.clone()).collect::<Vec<_>>().join(", "))
        .replace("@WORDS@", &lines(&refusals, |(name, held)| word_in(name, held.as_deref())))
        .replace("@NAMES@", &modules.iter().map(|(_, defined)| defined.join(" ")).collect::<Vec<_>>().join(" "))
        .replace("@TESTS@", &own_names())
}

fn read(path: &Path) -> String {
    fs::read_to_string(path).unwrap_or_else(|error| panic!("{}: {error}", path.display()))
}

fn lines<T>(items: &[T], line: impl Fn(&T) -> String) -> String {
    items.iter().map(line).collect::<Vec<_>>().join("\n")
}

/// Each file of definitions, with the names in it that can be unfolded.
fn modules(specs: &Path) -> Vec<(String, Vec<String>)> {
    let entries = fs::read_dir(specs).unwrap_or_else(|error| panic!("{}: {error}", specs.display()));
    let mut names: Vec<String> = entries.map(|entry| entry.unwrap().file_name().into_string().unwrap()).collect();
    names.sort();
    let module = |file: &String| Some((file.strip_suffix(".antt")?.to_string(), unfoldable(&read(&specs.join(file)))));
    names.iter().filter_map(module).filter(|(_, defined)| !defined.is_empty()).collect()
}

fn unfoldable(text: &str) -> Vec<String> {
    let marked = text.lines().filter_map(|line| line.trim_start().strip_prefix("unfoldable pub "));
    marked.filter_map(|rest| rest.split(' ').next()).map(str::to_string).collect()
}

/// What `Tests` itself defines, but for the last, which names all the others.
fn own_names() -> String {
    let names = unfoldable(TESTS);
    names[..names.len() - 1].join(" ")
}

fn uses(module: &str, defined: &[String]) -> String {
    format!("use Rattle.format.specs.{module}.{{{}}}", defined.join(", "))
}

/// The cases of the enum, and the type of what each holds: the bits word of 4, the place of 36.
fn refusals(text: &str) -> Vec<(String, Option<String>)> {
    let (_, after) = text.split_once("pub enum Refusal {").expect("the enum Refusal");
    let (body, _) = after.split_once('}').expect("its end");
    let cases = body.split(',').map(str::trim).filter(|case| !case.is_empty());
    let held = |(name, held): (&str, &str)| (name.to_string(), Some(held.trim_end_matches(')').to_string()));
    cases.map(|case| case.split_once('(').map_or((case.to_string(), None), held)).collect()
}

/// As an integer, whatever it is.
fn word_in(name: &str, held: Option<&str>) -> String {
    match held {
        None => format!("word_in {name} = pos 0"),
        Some("i16") => format!("word_in ({name} b) = b"),
        Some("u16") => format!("word_in ({name} p) = pos p"),
        Some(held) => panic!("{name} holds {held}"),
    }
}

// ---- the cases

const HEAD: &str = "\
use Rattle.std.specs.Prelude.{◌≡◌, refl, Bool, true, false, ◌&&◌, List, [], ◌∷◌, ℕ, ℤ, pos, negsuc}
use Rattle.format.specs.declared.settings.StereoMode.TheVariants.{Auto, Direct, MidSide}
use Rattle.asked.proofs.Tests.{octets, quads, spec, everything}
use Rattle.asked.proofs.Tests.{opens, opens_not, decodes, decodes_not, encodes, encodes_not, reencodes, reencodes_not}
use Rattle.asked.proofs.Tests.{reads, reads_not, host_reads, host_reads_not, host_opens, host_opens_not}
use Rattle.asked.proofs.Tests.{host_decodes, host_decodes_not, host_encodes, host_encodes_not}
use Rattle.asked.proofs.Tests.{host_reencodes, host_reencodes_not}
";

/// The boundary is asked in one case of so many, up to so many samples: its definitions go through bytes one by one.
const ONE_AT_HOST: usize = 3;
const MOST_AT_HOST: usize = 100;

/// A module of cases, each a theorem: that its test comes out `true`, or, to look closer, `false`.
pub fn module(cases: &[Numbered], outcome: bool) -> String {
    let theorem = |(k, question, answer): &Numbered| {
        let test = test(question, answer, &ranges(*k, question), k % ONE_AT_HOST == 0);
        let proof = format!("pub case_{k} : test_{k} ≡ {outcome}\nunfolding everything\ncase_{k} = refl\n");
        format!("\nabbrev test_{k} : Bool\ntest_{k} =\n{test}\n\n{proof}")
    };
    cases.iter().fold(String::from(HEAD), |text, case| text + &theorem(case))
}

fn test(question: &Question, answer: &Answer, ranges: &[Range], host_too: bool) -> String {
    let (name, call) = asked(question);
    let (end, plain, host) = match answer {
        Answer::Refused(number, word) => {
            let refused = refused(question, *number, *word);
            let plain = format!("{number} {} {} {}", integer(*word), refused.group, refused.channel);
            ("_not", plain, at_host(question, refused))
        }
        _ => ("", "e".to_string(), "e".to_string()),
    };
    let host =
        if host_too && few(question, answer) { format!(" && host_{name}{end} {host} {call}") } else { String::new() };
    let frames = ranges.iter().map(|range| few_frames(range, host_too)).collect::<String>();
    format!("{}{}    {name}{end} {plain} {call}{host}{frames}", inputs(question), expected(question, answer))
}

/// What is read of a file by the reference.
fn few_frames((first, count, said): &Range, host_too: bool) -> String {
    let call = format!("{first} {count} s");
    let (end, plain, host) = match said {
        Ok(samples) => ("", format!("({})", quads(samples)), format!("({})", quads(samples))),
        Err(Refused { number, told, group, channel }) => {
            ("_not", format!("{number} {} {group} {channel}", integer(*told as i16)), number.to_string())
        }
    };
    let host = if host_too { format!(" && host_reads{end} {host} {call}") } else { String::new() };
    format!(" && reads{end} {plain} {call}{host}")
}

/// What the reference says, which has to be the Rust's number and word: it tells the group and the channel too.
fn refused(question: &Question, number: u32, word: i16) -> Refused {
    let refused = match question {
        Question::Open(file) => located::opening(file),
        Question::Decode(file) => located::decoding(file),
        Question::Encode(p, mode, samples) => {
            let mode = [StereoMode::Auto, StereoMode::Direct, StereoMode::MidSide].iter().position(|m| m == mode);
            let mode = mode.expect("one of the three") as u32;
            located::encoding(samples, p.channels, p.bits_per_sample, p.sample_rate, mode)
        }
        Question::Reencode(p, samples, template) => {
            located::reencoding(samples, p.channels, p.bits_per_sample, p.sample_rate, template)
        }
    };
    let refused = refused.expect("a refusal, since the Rust refuses");
    assert_eq!((refused.number, refused.told as i16), (number, word), "the reference");
    refused
}

/// The number, and of decoding and re-encoding the word that tells where too.
fn at_host(question: &Question, refused: Refused) -> String {
    let Refused { number, told, group, channel } = refused;
    let place = if number == 36 { u64::from(told) } else { 0 };
    let word = u64::from(number) + (place << 8) + (u64::from(channel) << 24) + (u64::from(group) << 40);
    match question {
        Question::Decode(_) | Question::Reencode(..) => format!("{number} {word}"),
        Question::Open(_) | Question::Encode(..) => number.to_string(),
    }
}

/// The test's name, and what it calls the definitions with.
fn asked(question: &Question) -> (&'static str, String) {
    match question {
        Question::Open(_) => ("opens", "s".to_string()),
        Question::Decode(_) => ("decodes", "s".to_string()),
        Question::Encode(p, mode, _) => ("encodes", format!("{} {mode:?} s", spec(*p))),
        Question::Reencode(p, ..) => ("reencodes", format!("{} s t", spec(*p))),
    }
}

fn inputs(question: &Question) -> String {
    match question {
        Question::Open(file) | Question::Decode(file) => bound("s", "List ℕ", &octets(file)),
        Question::Encode(_, _, samples) => bound("s", "List ℤ", &quads(samples)),
        Question::Reencode(_, samples, template) => {
            bound("s", "List ℤ", &quads(samples)) + &bound("t", "List ℕ", &octets(template))
        }
    }
}

/// What is expected, where it is no refusal.
fn expected(question: &Question, answer: &Answer) -> String {
    match (question, answer) {
        (_, Answer::Refused(..)) => String::new(),
        (_, Answer::Opened(numbers)) => bound("e", "List ℕ", &list(numbers.iter().map(u64::to_string))),
        (_, Answer::Bytes(bytes)) => bound("e", "List ℕ", &octets(bytes)),
        (Question::Decode(file), Answer::Samples(samples)) => bound("e", "List (List ℤ)", &groups(file, samples)),
        _ => panic!("an answer to another question"),
    }
}

fn few(question: &Question, answer: &Answer) -> bool {
    match (question, answer) {
        (Question::Encode(_, _, samples) | Question::Reencode(_, samples, _), _) | (_, Answer::Samples(samples)) => {
            samples.len() <= MOST_AT_HOST
        }
        _ => true,
    }
}

// ---- the parts of a test

fn bound(name: &str, kind: &str, value: &str) -> String {
    format!("    let {name} : {kind} = {value} in\n")
}

fn integer(number: i16) -> String {
    if number < 0 {
        format!("(negsuc {})", !number)
    } else {
        format!("(pos {number})")
    }
}

fn spec(spec: PcmSpec) -> String {
    format!("(spec {} {} {})", spec.channels, spec.bits_per_sample, spec.sample_rate)
}

fn list(elements: impl Iterator<Item = String>) -> String {
    elements.map(|element| element + " ∷ ").collect::<String>() + "[]"
}

/// Bytes as one number, the first byte lowest.
fn octets(bytes: &[u8]) -> String {
    format!("octets {} {}", bytes.len(), numeral(bytes))
}

fn quads(samples: &[i32]) -> String {
    let bytes: Vec<u8> = samples.iter().flat_map(|sample| sample.to_le_bytes()).collect();
    format!("quads {} {}", samples.len(), numeral(&bytes))
}

fn numeral(bytes: &[u8]) -> String {
    let digits: String = bytes.iter().rev().map(|byte| format!("{byte:02X}")).collect();
    format!("0x{}", if digits.is_empty() { "0" } else { &digits })
}

/// The samples of each group, 512 frames of the channels that bytes 8 and 9 give.
fn groups(file: &[u8], samples: &[i32]) -> String {
    let channels = usize::from(u16::from_le_bytes([file[8], file[9]]));
    list(samples.chunks(512 * channels).map(quads))
}
