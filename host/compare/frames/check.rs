//! One range on all sides.
use super::answers::Tally;
use super::mended::{mended, touched};
use super::sides::{cut, drop_in, pieces, whole};
use super::{rooms, Call};
use crate::few_frames::read_frames;
use crate::input::{calmly, differ, same_samples, Difference, Read};
use crate::located::Refused;
use crate::reading::sides::{original, Opened, Said};
use crate::reading::watched::stopped;
use crate::refusals::{self, nowhere, REFERENCE};

const RUST: &str = "the Rust original";
const DROP_IN: &str = "the drop-in crate";

pub fn check(call: &Call, tally: &mut Tally) -> Result<(), Difference> {
    let whole = calmly(RUST, || whole(&call.file))?;
    let said = calmly(REFERENCE, || read_frames(&call.file, call.first, call.count, u64::MAX))?;
    tally.note(call, &whole, &said);
    refer(call, &whole, &said)?;
    let ours = calmly(DROP_IN, || drop_in(call))?;
    tally.calls += 1 + u64::from(whole.opened.is_ok());
    same_samples("a few frames by the drop-in crate", &numbered(&said), &ours)?;
    if call.count == 0 {
        tally.calls += 1;
        same_samples("all pieces by the drop-in crate", &whole.decoded, &calmly(DROP_IN, || pieces(&call.file))?)?;
    }
    calmly("the host boundary", || rooms::check(call, &said, tally))?
}

/// The number, and the bits word of 4, as the other sides have them.
fn numbered(said: &Result<Vec<i32>, Refused>) -> Read {
    let bits = |refused: &Refused| if refused.number == 4 { refused.told as i16 } else { 0 };
    said.as_ref().cloned().map_err(|refused| (refused.number, bits(refused)))
}

/// The reference, held to the original: to what opening refuses, and where the frames are there to the whole decode of the file in which only the
/// touched groups count. Where the whole decode of the file itself succeeds, to its cut.
fn refer(call: &Call, whole: &Said, said: &Result<Vec<i32>, Refused>) -> Result<(), Difference> {
    let refused = said.as_ref().err().copied();
    let opened = match &whole.opened {
        Err(rust) => return refusals::same("opening", Some(*rust), refused),
        Ok(opened) => opened,
    };
    if call.end() > opened.frames.into() {
        return match refused == Some(nowhere(51)) {
            true => Ok(()),
            false => differ(REFERENCE, "refused 51", &format!("{refused:?}")),
        };
    }
    refer_to_mended(call, opened, said)?;
    match &whole.decoded {
        Ok(samples) => same_samples(REFERENCE, &Ok(cut(call, opened.channels, samples).to_vec()), &numbered(said)),
        Err(_) => Ok(()),
    }
}

fn refer_to_mended(call: &Call, opened: &Opened, said: &Result<Vec<i32>, Refused>) -> Result<(), Difference> {
    let file = mended(&call.file, touched(call.first, call.count));
    let rust = calmly(RUST, || original(&file))?.decoded;
    let cut = rust.map(|samples| cut(call, opened.channels, &samples).to_vec());
    same_samples(REFERENCE, &cut, &numbered(said))?;
    match said {
        Ok(_) => Ok(()),
        Err(refused) => {
            let (group, channel) = calmly(RUST, || stopped(&file))?;
            refusals::same_place("a few frames", (group, if refused.number == 22 { 0 } else { channel }), *refused)
        }
    }
}
