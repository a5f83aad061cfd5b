//! Where a call is refused: the reference, held to the original, which tells the number, and the group by shorter calls.
use super::answers::Tally;
use super::sides::original;
use super::Call;
use crate::input::{differ, Difference};
use crate::lent::Written;
use crate::located::{self, Refused};
use crate::misfit::first_misfit;
use crate::parts::first_groups;
use crate::refusals::{nowhere, same, REFERENCE};
use crate::writing::Sampled;

/// What the reference says. 39 is document 01's, and comes first.
pub fn refer(call: &Call, rust: &Written, bits: i16, tally: &mut Tally) -> Result<Option<Refused>, Difference> {
    let Some(samples) = call.numbers() else { return Ok(Some(nowhere(39))) };
    let located = located::reencoding(&samples, call.channels, call.depth, call.rate, &call.template);
    same("re-encoding", rust.as_ref().err().map(|number| (*number, bits)), located)?;
    tally.answers.places.note(located);
    check_misfit(call, &samples, located, tally)?;
    if let Some(refused) = located.filter(|refused| is_in_group(call, refused.number)) {
        check_group(call, refused)?;
    }
    Ok(located)
}

/// The other question to the reference of 36's place, of the whole call: it finds a misfit where 36 is told, that one, and none in what is accepted.
fn check_misfit(call: &Call, samples: &[i32], located: Option<Refused>, tally: &mut Tally) -> Result<(), Difference> {
    if located.is_some_and(|refused| refused.number != 36) {
        return Ok(());
    }
    let found = first_misfit(samples, call.channels.into(), &call.template);
    found.iter().for_each(|misfit| tally.answers.misfits.note(misfit));
    let told = located.map(|refused| [refused.group as usize, refused.channel.into(), refused.told.into()]);
    match found.map(|misfit| [misfit.group, misfit.channel, misfit.place]) {
        found if found == told => Ok(()),
        found => differ("the reference of 36's place", &format!("{told:?}"), &format!("{found:?}")),
    }
}

/// Whether the refusal is in a group: 1 is too where the template has a header.
fn is_in_group(call: &Call, number: u32) -> bool {
    matches!(number, 3 | 4 | 34 | 35 | 36 | 43..=46) || number == 1 && call.template.len() >= 120
}

/// The original, of ever more groups: it refuses first with the group that the reference names, and by the same number.
fn check_group(call: &Call, refused: Refused) -> Result<(), Difference> {
    let (group, number) = first_refused(call).unwrap_or_else(|whole| (whole, refused.number));
    let seen = format!("refused {number} in group {group}");
    match (group, number) == (refused.group, refused.number) {
        true => Ok(()),
        false => differ(&format!("{REFERENCE}, re-encoding"), &seen, &format!("{refused:?}")),
    }
}

/// The first group with which the original refuses, and its number; or the last group, where it is the whole call that is refused.
fn first_refused(call: &Call) -> Result<(u32, u32), u32> {
    let refused = |last| match shortened(call, last + 1) {
        Some(shorter) => original(&shorter).err().map(|(number, _)| Ok((last, number))),
        None => Some(Err(last)),
    };
    (0..).find_map(refused).expect("a call has a last group")
}

/// The call of so many groups, which are fewer than it has.
fn shortened(call: &Call, groups: u32) -> Option<Call> {
    let template = first_groups(&call.template, groups)?;
    let length = 4 * 512 * usize::from(call.channels) * groups as usize;
    Some(Call { samples: call.samples.get(..length)?.to_vec(), template, ..*call })
}
