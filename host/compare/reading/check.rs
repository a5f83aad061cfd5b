//! One file on both sides.
use super::answers::Tally;
use super::sides::{drop_in, original, Said};
use super::{rooms, watched};
use crate::input::{calmly, differ, in_short, same_samples, Difference};
use crate::located;
use crate::refusals::{self, REFERENCE};

pub fn check(file: &[u8], tally: &mut Tally) -> Result<(), Difference> {
    let rust = calmly("the Rust original", || original(file))?;
    tally.note(&rust);
    let ours = calmly("the drop-in crate", || drop_in(file))?;
    tally.calls += 1 + u64::from(ours.opened.is_ok());
    if rust.opened != ours.opened {
        let [rust, ours] = [&rust, &ours].map(|said| in_short(&said.opened, |opened| format!("{opened:?}")));
        return differ("opening by the drop-in crate", &rust, &ours);
    }
    same_samples("decoding by the drop-in crate", &rust.decoded, &ours.decoded)?;
    let located = calmly(REFERENCE, || refer(file, &rust))??;
    tally.answers.places.note(located);
    let said = calmly("the drop-in crate", || ours::decode_refusal(file, usize::MAX))?;
    refusals::check_drop_in("a refused decoding", said, located)?;
    calmly("the host boundary", || rooms::check(file, &rust, located, tally))?
}

/// What the reference says of decoding, held to the original: to what it refuses by, and once the file opens to where it stops. 22 has no channel.
fn refer(file: &[u8], rust: &Said) -> Result<Option<located::Refused>, Difference> {
    let located = located::decoding(file);
    refusals::same("opening", rust.opened.as_ref().err().copied(), located::opening(file))?;
    refusals::same("decoding", rust.decoded.as_ref().err().copied(), located)?;
    if let (Ok(_), Some(refused)) = (&rust.opened, located) {
        let (group, channel) = watched::stopped(file);
        refusals::same_place("decoding", (group, if refused.number == 22 { 0 } else { channel }), refused)?;
    }
    Ok(located)
}
