//! The host boundary's call, held to the original's answer.
use super::answers::Tally;
use super::Call;
use crate::boundary;
use crate::input::Difference;
use crate::lent::{self, check_room, Lent, Written};
use crate::located::Refused;
use crate::refusals::check_words;

pub fn check(call: &Call, written: &Written, located: Option<Refused>, tally: &mut Tally) -> Result<(), Difference> {
    let Call { channels, depth, rate, .. } = *call;
    let (mark, like) = (lent::mark(&call.samples) + usize::from(channels), lent::mark(&call.template));
    let (samples, template) = (Lent::of(&call.samples, mark), Lent::of(&call.template, like));
    let reencode = |file: &mut [u8]| boundary::reencode(samples.part(), channels, depth, rate, template.part(), file);
    let mark_of_room = mark.wrapping_add(3 * like);
    let rooms = rooms(call, written, mark_of_room);
    rooms.iter().try_for_each(|room| check_room("ncw_reencode", reencode, *room, mark_of_room, written, tally))?;
    let refusal = |room| boundary::reencode_refusal(samples.part(), channels, depth, rate, template.part(), room);
    let length = written.as_ref().map_or(0, Vec::len);
    check_words("ncw_reencode_refusal", refusal, &rooms, length, located, tally)?;
    samples.check_kept("the samples' own bytes", &call.samples, mark)?;
    template.check_kept("the template's own bytes", &call.template, like)
}

/// What is written is as long as the template.
fn rooms(call: &Call, written: &Written, mark: usize) -> Vec<usize> {
    match written {
        Ok(file) => lent::rooms(file.len(), mark),
        Err(_) => lent::rooms_refused(call.template.len(), mark),
    }
}
