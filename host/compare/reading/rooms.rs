//! The host boundary's calls on a file, held to the original's answer.
use super::answers::Tally;
use super::sides::Said;
use crate::boundary;
use crate::input::{differ, Difference};
use crate::lent::{self, as_bytes, check_room, words, Lent, Written, MOST_REFUSED, REFUSED};
use crate::located::Refused;
use crate::refusals::check_words;

pub fn check(file: &[u8], said: &Said, located: Option<Refused>, tally: &mut Tally) -> Result<(), Difference> {
    let mark = lent::mark(file);
    let lent = Lent::of(file, mark);
    check_open(&lent, said, tally)?;
    let written: Written = match &said.decoded {
        Ok(samples) => Ok(as_bytes(samples)),
        Err((number, _)) => Err(*number),
    };
    let decode = |samples: &mut [u8]| boundary::decode(lent.part(), samples);
    let rooms = rooms(said, &written, mark);
    rooms.iter().try_for_each(|room| check_room("ncw_decode", decode, *room, mark, &written, tally))?;
    let refusal = |room| boundary::decode_refusal(lent.part(), room);
    let length = written.map_or(0, |bytes| bytes.len());
    check_words("ncw_decode_refusal", refusal, &rooms, length, located, tally)?;
    lent.check_kept("the file's own bytes", file, mark)
}

fn check_open(lent: &Lent, said: &Said, tally: &mut Tally) -> Result<(), Difference> {
    let expected = match &said.opened {
        Ok(opened) => 4 * u64::from(opened.frames) * u64::from(opened.channels),
        Err((number, _)) => REFUSED + u64::from(*number),
    };
    tally.calls += 1;
    match boundary::open(lent.part()) {
        answer if answer == expected => Ok(()),
        answer => differ("ncw_open", &words(expected), &words(answer)),
    }
}

fn rooms(said: &Said, written: &Written, mark: usize) -> Vec<usize> {
    match (written, &said.opened) {
        (Ok(bytes), _) => lent::rooms(bytes.len(), mark),
        (Err(_), Ok(opened)) => {
            let length = 4 * opened.frames as usize * usize::from(opened.channels);
            vec![0, length.min(MOST_REFUSED), length.min(MOST_REFUSED) + 1 + mark % 7]
        }
        (Err(_), Err(_)) => vec![0, 8 + mark % 90],
    }
}
