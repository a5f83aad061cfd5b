//! The host boundary's four calls, held to the reference's answers.
use super::answers::Tally;
use super::sides::Said;
use super::Call;
use crate::boundary;
use crate::input::{differ, Difference};
use crate::lent::{self, as_bytes, check_room, words, Lent, Written, REFUSED};
use crate::summaries::{self, Pair, Summary};

pub fn check(call: &Call, said: &Said, tally: &mut Tally) -> Result<(), Difference> {
    let mark = lent::mark(&call.file).wrapping_add(3 * lent::mark(&call.summary)).wrapping_add(call.channel as usize);
    let (file, summary) = (Lent::of(&call.file, mark), Lent::of(&call.summary, mark / 3));
    check_built(&file, &said.built, mark, tally)?;
    check_read(call, &summary, said, mark, tally)?;
    check_same(&summary, &file, &said.same, tally)?;
    check_others(&file, &said.built, mark, tally)?;
    file.check_kept("the file's own bytes", &call.file, mark)?;
    summary.check_kept("the summary's own bytes", &call.summary, mark / 3)
}

/// With the usual rooms, and with room for any summary of so many pairs, a byte less and a byte more: from there on it is not measured.
fn check_built(file: &Lent, built: &Written, mark: usize, tally: &mut Tally) -> Result<(), Difference> {
    let rooms = match built {
        Ok(bytes) => {
            let pairs = summaries::read(bytes).map_or(0, |summary| summary.pairs.len());
            tally.note_pairs(pairs, false);
            let ample = 10 * pairs + 10;
            [lent::rooms(bytes.len(), mark), vec![ample - 1, ample, ample + 1]].concat()
        }
        Err(_) => lent::rooms_refused(file.part().len() / 8 + 10, mark),
    };
    let build = |summary: &mut [u8]| boundary::peaks(file.part(), summary);
    rooms.iter().try_for_each(|room| check_room("ncw_peaks", build, *room, mark, built, tally))
}

fn as_pairs(pairs: &[Pair]) -> Vec<u8> {
    as_bytes(&pairs.iter().flat_map(|(smallest, largest)| [*smallest, *largest]).collect::<Vec<_>>())
}

/// The pair that is asked for, all of them, and each by itself.
fn check_read(call: &Call, summary: &Lent, said: &Said, mark: usize, tally: &mut Tally) -> Result<(), Difference> {
    let one = said.pair.map(|pair| as_pairs(&[pair]));
    let all = summaries::read_pairs(&call.summary, u64::MAX).map(|pairs| as_pairs(&pairs));
    let rooms = |written: &Written, enough: usize| match written {
        Ok(bytes) => lent::rooms(bytes.len(), mark),
        Err(_) => lent::rooms_refused(enough, mark),
    };
    let read = |pair: &mut [u8]| boundary::peak(summary.part(), call.group, call.channel, pair);
    rooms(&one, 8).iter().try_for_each(|room| check_room("ncw_peak", read, *room, mark, &one, tally))?;
    let read = |pairs: &mut [u8]| boundary::peaks_all(summary.part(), pairs);
    let enough = 4 * summary.part().len();
    rooms(&all, enough).iter().try_for_each(|room| check_room("ncw_peaks_all", read, *room, mark, &all, tally))?;
    match &said.read {
        Ok(held) => check_each(summary, held, mark, tally),
        Err(_) => Ok(()),
    }
}

/// So many pairs of a summary are asked for one by one; of more than these some.
const EACH: usize = 24;

/// Every pair, and around the last group and the last channel what is past them.
fn check_each(summary: &Lent, held: &Summary, mark: usize, tally: &mut Tally) -> Result<(), Difference> {
    let (groups, channels, count) = (held.groups(), held.channels, held.pairs.len());
    tally.note_pairs(count, true);
    let step = count.div_ceil(EACH).max(1);
    let from = if step > 1 { mark % step } else { 0 };
    let numbers = (from..count).step_by(step).map(|k| ((k / channels as usize) as u32, (k % channels as usize) as u32));
    let last = groups.saturating_sub(1);
    let past = [(groups, 0), (0, channels), (last, channels), (groups, channels - 1), (0, u32::MAX), (u32::MAX, 0)];
    for (group, channel) in numbers.chain(past) {
        let written = held.pair(group, channel).map(|pair| as_pairs(&[pair])).ok_or(67);
        let name = format!("ncw_peak of group {group} and channel {channel}");
        let read = |pair: &mut [u8]| boundary::peak(summary.part(), group, channel, pair);
        check_room(&name, read, 8 + mark % 3, mark, &written, tally)?;
    }
    Ok(())
}

fn check_same(summary: &Lent, file: &Lent, same: &Result<bool, u32>, tally: &mut Tally) -> Result<(), Difference> {
    let expected = same.map_or_else(|number| REFUSED + u64::from(number), u64::from);
    tally.calls += 1;
    match boundary::peaks_check(summary.part(), file.part()) {
        answer if answer == expected => Ok(()),
        answer => differ("ncw_peaks_check", &verdict(expected), &verdict(answer)),
    }
}

fn verdict(answer: u64) -> String {
    match answer {
        0 => "no".to_string(),
        1 => "yes".to_string(),
        _ => words(answer),
    }
}

/// The file's own summary, the same without its last byte, with a byte more, and with one that is another.
fn check_others(file: &Lent, built: &Written, mark: usize, tally: &mut Tally) -> Result<(), Difference> {
    let Ok(built) = built else { return Ok(()) };
    let mut changed = built.clone();
    changed[mark % built.len()] ^= 1 << (mark / 8 % 8);
    let others = [built.to_vec(), built[..built.len() - 1].to_vec(), [&built[..], &[mark as u8]].concat(), changed];
    for (k, other) in others.iter().enumerate() {
        check_same(&Lent::of(other, mark), file, &Ok(k == 0), tally)?;
    }
    Ok(())
}
