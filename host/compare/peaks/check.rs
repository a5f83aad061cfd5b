//! One summary and one file on all sides.
use super::answers::Tally;
use super::sides::{decoded, drop_in, reference, DropIn, Said};
use super::{rooms, Call};
use crate::input::{calmly, differ, Difference, Refused};
use crate::summaries::{read, summary, written, Summary};
use std::fmt::Debug;

const REFERENCE: &str = "the reference of summaries";
const DROP_IN: &str = "the drop-in crate";

pub fn check(call: &Call, tally: &mut Tally) -> Result<(), Difference> {
    let said = calmly(REFERENCE, || reference(call))?;
    tally.note(call, &said);
    calmly(REFERENCE, || refer(call, &said))??;
    let ours = calmly(DROP_IN, || drop_in(call))?;
    tally.calls += 4;
    check_drop_in(call, &said, &ours)?;
    calmly("the host boundary", || rooms::check(call, &said, tally))?
}

/// The reference held to itself: what is built reads as the peaks of the samples, and what reads is written as it was. So it has one encoding.
fn refer(call: &Call, said: &Said) -> Result<(), Difference> {
    if let Ok(built) = &said.built {
        let peaks = decoded(&call.file).map(|file| summary(&file));
        same(&format!("{REFERENCE}, built and read"), &peaks, &read(built))?;
    }
    match &said.read {
        Ok(summary) => same(&format!("{REFERENCE}, read and written"), &call.summary, &written(summary)),
        Err(_) => Ok(()),
    }
}

/// Bytes and what they hold, the number and the bits word of 4.
fn check_drop_in(call: &Call, said: &Said, ours: &DropIn) -> Result<(), Difference> {
    let of_file = |number: u32| -> Refused { (number, if number == 4 { said.bits } else { 0 }) };
    let of_summary = |number: &u32| -> Refused { (*number, 0) };
    let built = said.built.clone().map_err(of_file);
    same("building by the drop-in crate", &built, &ours.built.as_ref().map(|built| built.0.clone()).map_err(|r| *r))?;
    if let Ok((bytes, held)) = &ours.built {
        same("what the drop-in crate built, read", &read(bytes).as_ref(), &Ok(held))?;
    }
    let opened: Result<(&[u8], &Summary), Refused> =
        said.read.as_ref().map(|summary| (&call.summary[..], summary)).map_err(of_summary);
    let read = ours.read.as_ref().map(|(bytes, summary)| (&bytes[..], summary)).map_err(|refused| *refused);
    same("opening by the drop-in crate", &opened, &read)?;
    same("a pair by the drop-in crate", &said.pair.map_err(|number| (number, 0)), &ours.pair)?;
    same("a pair of what the drop-in crate opened", &said.pair.ok(), &ours.got)?;
    same("checking by the drop-in crate", &said.same.map_err(of_file), &ours.same)
}

/// The most that is printed of either.
const MOST: usize = 300;

fn same<T: PartialEq + Debug>(what: &str, one: &T, other: &T) -> Result<(), Difference> {
    let short = |said: &T| format!("{said:?}").chars().take(MOST).collect::<String>();
    match one == other {
        true => Ok(()),
        false => differ(what, &short(one), &short(other)),
    }
}
