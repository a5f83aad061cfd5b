//! The host boundary's call, held to the reference's answer; and what it does not look at.
use super::answers::Tally;
use super::Call;
use crate::boundary;
use crate::few_frames::view;
use crate::input::Difference;
use crate::lent::{self, as_bytes, check_room, Lent, Written};
use crate::located::Refused;
use crate::random::Random;

pub fn check(call: &Call, said: &Result<Vec<i32>, Refused>, tally: &mut Tally) -> Result<(), Difference> {
    let mark = lent::mark(&call.file).wrapping_add(3 * call.first as usize).wrapping_add(5 * call.count as usize);
    let written: Written = said.as_ref().map(|samples| as_bytes(samples)).map_err(|refused| refused.number);
    let rooms = match &written {
        Ok(bytes) => lent::rooms(bytes.len(), mark),
        Err(_) => lent::rooms_refused(8 * call.count as usize, mark),
    };
    check_file("ncw_read_frames", call, &call.file, &rooms, mark, &written, tally)?;
    let other = other(call, mark as u64);
    tally.answers.note_other(&call.file, &other);
    let name = "ncw_read_frames, all changed that is not looked at,";
    check_file(name, call, &other, &[rooms[0], rooms[rooms.len() - 1]], mark, &written, tally)
}

fn check_file(
    name: &str,
    call: &Call,
    file: &[u8],
    rooms: &[usize],
    mark: usize,
    written: &Written,
    tally: &mut Tally,
) -> Result<(), Difference> {
    let lent = Lent::of(file, mark);
    let read = |samples: &mut [u8]| boundary::read_frames(lent.part(), call.first, call.count, samples);
    rooms.iter().try_for_each(|room| check_room(name, read, *room, mark, written, tally))?;
    lent.check_kept("the file's own bytes", file, mark)
}

/// Another file that agrees on all that answer and samples may depend on. Every other byte differs.
fn other(call: &Call, seed: u64) -> Vec<u8> {
    let random = &mut Random::new(seed);
    let mut other = call.file.clone();
    for eight in other.chunks_mut(8) {
        let noise = (random.next() | 0x0101_0101_0101_0101).to_le_bytes();
        eight.iter_mut().zip(noise).for_each(|(byte, noise)| *byte ^= noise);
    }
    for part in view(&call.file, call.first, call.count) {
        other[part.clone()].copy_from_slice(&call.file[part]);
    }
    other
}
