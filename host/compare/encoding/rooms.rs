//! The host boundary's call, held to what has to be written.
use super::answers::Tally;
use super::Call;
use crate::boundary;
use crate::input::Difference;
use crate::lent::{self, check_room, Lent, Written};

pub fn check(call: &Call, written: &Written, tally: &mut Tally) -> Result<(), Difference> {
    let mark = lent::mark(&call.samples) + usize::from(call.channels) + call.mode as usize;
    let lent = Lent::of(&call.samples, mark);
    let encode = |file: &mut [u8]| boundary::encode(lent.part(), call.channels, call.depth, call.rate, call.mode, file);
    let mut rooms = rooms(call, written, mark).into_iter();
    rooms.try_for_each(|room| check_room("ncw_encode", encode, room, mark, written, tally))?;
    lent.check_kept("the samples' own bytes", &call.samples, mark)
}

/// Where a call is refused there is enough for whatever it could have written.
fn rooms(call: &Call, written: &Written, mark: usize) -> Vec<usize> {
    match written {
        Ok(file) => lent::rooms(file.len(), mark),
        Err(_) => lent::rooms_refused(call.longest(), mark),
    }
}
