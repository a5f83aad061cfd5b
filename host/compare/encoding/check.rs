//! One call on all sides.
use super::answers::Tally;
use super::sides::{drop_in, original, reference};
use super::{rooms, Call};
use crate::input::{calmly, same_samples, Difference};
use crate::lent::Written;
use crate::located::Refused;
use crate::reading::sides::decoded;
use crate::refusals::same_place;
use crate::writing::{same, Sampled, DEPTHS};

const RUST: &str = "the Rust original";
const REFERENCE: &str = "the reference of encoding";

pub fn check(call: &Call, tally: &mut Tally) -> Result<(), Difference> {
    let rust = calmly(RUST, || original(call))?;
    let by_30 = rust == Err(30);
    let written = match calmly(REFERENCE, || reference(call))? {
        Some(said) => {
            tally.answers.places.note(said.as_ref().err().copied());
            decided(call, rust, said)?
        }
        None => rust,
    };
    tally.note(call, &written, by_30 && written != Err(30));
    if let Some(ours) = calmly("the drop-in crate", || drop_in(call))? {
        tally.calls += 1;
        same("encoding by the drop-in crate", &written, &ours)?;
    }
    calmly("the host boundary", || rooms::check(call, &written, tally))?
}

/// The original decides, and the reference is held to it. Where the original refuses by a 30 that document 02 has not, the reference decides, and the
/// original's reader has to read the samples in its file.
fn decided(call: &Call, rust: Written, said: Result<Vec<u8>, Refused>) -> Result<Written, Difference> {
    let samples = call.numbers().expect("39 comes before");
    let refused = said.as_ref().err().copied();
    let written = said.map_err(|refused| refused.number);
    if is_widened(call) && rust == Err(30) && written != Err(30) {
        if let Ok(file) = &written {
            let what = format!("{REFERENCE}, its file by the original's reader");
            same_samples(&what, &calmly(RUST, || decoded(file))?, &Ok(samples))?;
        }
        return Ok(written);
    }
    same(REFERENCE, &rust, &written)?;
    if let Some(refused) = refused.filter(|refused| refused.number == 35) {
        same_place("encoding", (calmly(RUST, || first_refused(call, &samples))?, 0), refused)?;
    }
    Ok(rust)
}

/// Whether the original has to refuse channels or depth: it takes mono and stereo of 16 and 24 bits.
fn is_widened(call: &Call) -> bool {
    !([1, 2].contains(&call.channels) && DEPTHS.contains(&call.depth))
}

/// 35 is in the first group with which the original refuses.
fn first_refused(call: &Call, samples: &[i32]) -> u32 {
    let up_to = |group: u32| &samples[..samples.len().min(1024 * (group as usize + 1))];
    (0..).find(|group| original(&call.with(up_to(*group))).is_err()).expect("the whole call is refused")
}
