//! One call on both sides.
use super::answers::Tally;
use super::places::refer;
use super::sides::{drop_in, original, refusal_of_drop_in, Worded};
use super::{rooms, Call};
use crate::input::{calmly, differ, Difference};
use crate::lent::Written;
use crate::refusals::{self, REFERENCE};
use crate::writing::same;

pub fn check(call: &Call, tally: &mut Tally) -> Result<(), Difference> {
    let (rust, word) = apart(calmly("the Rust original", || original(call))?);
    tally.note(call, &rust);
    if let Some(ours) = calmly("the drop-in crate", || drop_in(call))? {
        tally.calls += 1;
        let (ours, ours_word) = apart(ours);
        same("re-encoding by the drop-in crate", &rust, &ours)?;
        if word != ours_word {
            return differ("the bits word by the drop-in crate", &word.to_string(), &ours_word.to_string());
        }
    }
    let located = calmly(REFERENCE, || refer(call, &rust, word, tally))??;
    if let Some(said) = calmly("the drop-in crate", || refusal_of_drop_in(call))? {
        refusals::check_drop_in("a refused re-encoding", said, located)?;
    }
    calmly("the host boundary", || rooms::check(call, &rust, located, tally))?
}

/// The bits word by itself.
fn apart(said: Worded) -> (Written, i16) {
    match said {
        Ok(file) => (Ok(file), 0),
        Err((number, word)) => (Err(number), word),
    }
}
