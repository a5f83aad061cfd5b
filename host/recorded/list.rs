//! The list of answers: every case as items, and what the program must print of them.
use crate::answers::writing;
use crate::beyond;
use crate::cases::{self, Case};
use crate::chains;
use crate::encodings::{self, Encoding};
use crate::lies;
use crate::misfits;
use crate::pairs;
use crate::places;
use crate::ranges;
use crate::summaries;
use crate::tape::{samples_in, Tape};
use crate::templates::{self, Reencoding};
use crate::traps;
use crate::walks::{self, Walk};

/// The whole list, still to be ended.
pub fn whole() -> Tape {
    let mut tape = Tape::new();
    cases::all().iter().for_each(|case| read(&mut tape, case));
    walks::all().iter().for_each(|case| walk(&mut tape, case));
    encodings::all().iter().for_each(|case| write(&mut tape, case));
    templates::all().iter().for_each(|case| rewrite(&mut tape, case));
    traps::all(&mut tape);
    pairs::all(&mut tape);
    chains::all(&mut tape);
    lies::all(&mut tape);
    misfits::all().iter().for_each(|case| rewrite(&mut tape, case));
    places::all(&mut tape);
    ranges::all(&mut tape);
    summaries::all(&mut tape);
    beyond::all().iter().for_each(|case| write(&mut tape, case));
    beyond::of_settings(&mut tape);
    tape
}

fn read(tape: &mut Tape, case: &Case) {
    tape.case(format!("read: {}", case.name));
    tape.file(&case.file);
    tape.open();
    tape.decode(case.room);
    ranges::of_any(tape);
    summaries::of_any(tape);
}

/// From the first group on, the last step once more, and the whole file.
fn walk(tape: &mut Tape, case: &Walk) {
    tape.case(format!("walk: {}", case.name));
    tape.file(&case.file);
    tape.open();
    let mut at = 0;
    while tape.step(at, case.room) != at {
        at += 1;
    }
    tape.step(at, case.room);
    tape.decode(samples_in(&case.file));
}

fn write(tape: &mut Tape, case: &Encoding) {
    tape.case(format!("encode: {}", case.name));
    tape.settings(case.spec);
    tape.samples(case.samples.clone());
    if tape.encode(case.mode as u32, case.room) {
        read_written(tape);
    }
}

fn rewrite(tape: &mut Tape, case: &Reencoding) {
    tape.case(format!("re-encode: {}", case.name));
    tape.settings(case.spec);
    tape.samples(case.samples.clone());
    give_template(tape, case);
    if tape.reencode(case.room) {
        read_written(tape);
    }
}

/// A template that the encoder makes of the same samples is written here, and kept.
fn give_template(tape: &mut Tape, case: &Reencoding) {
    let (template, samples) = (&case.template, tape.sample_bytes().to_vec());
    let makes = |mode: &u32| {
        let (told, file) = writing(case.spec, *mode, &samples, template.len());
        told.accepted() && file == *template
    };
    match (0..3).find(makes) {
        Some(mode) if tape.encode(mode, template.len()) => tape.keep_written(),
        _ => tape.file(template),
    }
}

fn read_written(tape: &mut Tape) {
    tape.keep_written();
    tape.open();
    tape.decode(samples_in(tape.file_bytes()));
}
