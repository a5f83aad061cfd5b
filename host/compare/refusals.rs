//! Where a call is refused: the reference, the host boundary's words that are held to it, and how many there were.
use crate::input::{differ, Difference, Tally};
use crate::located::Refused;
use crate::table::{line, Table};

pub const REFERENCE: &str = "the reference of refusals";

/// A refusal that concerns no group.
pub fn nowhere(number: u32) -> Refused {
    Refused { number, told: 0, group: 0, channel: 0 }
}

/// Holds the reference to the original: the number, and the bits word of 4. 36's place the original does not tell.
pub fn same(what: &str, rust: Option<(u32, i16)>, reference: Option<Refused>) -> Result<(), Difference> {
    let bits = |refused: &Refused| if refused.number == 4 { refused.told as i16 } else { 0 };
    match reference.map(|refused| (refused.number, bits(&refused))) {
        said if said == rust => Ok(()),
        said => differ(&format!("{REFERENCE}, {what}"), &format!("{rust:?}"), &format!("{said:?}")),
    }
}

/// Holds where the reference says it is to where the original was seen to stop.
pub fn same_place(what: &str, seen: (u32, u16), refused: Refused) -> Result<(), Difference> {
    let shown = |(group, channel)| format!("refused {}, group {group}, channel {channel}", refused.number);
    match (refused.group, refused.channel) {
        said if said == seen => Ok(()),
        said => differ(&format!("{REFERENCE}, {what}"), &shown(seen), &shown(said)),
    }
}

/// The host boundary's word, 0 for none: the number, 36's place from 2^8 on, the channel from 2^24 on, the group from 2^40 on.
fn word(refused: Option<Refused>) -> u64 {
    let of = |refused: Refused| {
        let place = if refused.number == 36 { refused.told } else { 0 };
        let (number, place) = (u64::from(refused.number), u64::from(place));
        number + (place << 8) + (u64::from(refused.channel) << 24) + (u64::from(refused.group) << 40)
    };
    refused.map_or(0, of)
}

fn in_words(word: u64) -> String {
    let (number, place, channel, group) = (word as u8, (word >> 8) as u16, (word >> 24) as u16, word >> 40);
    match word {
        0 => "success".to_string(),
        _ => format!("refused {number}, group {group}, channel {channel}, place {place}"),
    }
}

/// The call that tells where another would be refused, with each of these rooms and with the most there can be. What is accepted
/// takes so many bytes.
pub fn check_words<A>(
    name: &str,
    call: impl Fn(u64) -> u64,
    rooms: &[usize],
    length: usize,
    refused: Option<Refused>,
    tally: &mut Tally<A>,
) -> Result<(), Difference> {
    for room in rooms.iter().map(|room| *room as u64).chain([u64::MAX]) {
        let too_short = room < length as u64;
        let expected = word(refused.or(too_short.then_some(nowhere(50))));
        let got = call(room);
        tally.calls += 1;
        if got != expected {
            return differ(&format!("{name} with room {room}"), &in_words(expected), &in_words(got));
        }
    }
    Ok(())
}

/// What the drop-in crate says of a refusal, the room being enough.
pub fn check_drop_in(name: &str, said: Option<ours::Refused>, refused: Option<Refused>) -> Result<(), Difference> {
    let said = said.map(|said| Refused {
        number: said.number().unwrap_or(0),
        told: match said.error {
            ours::NcwError::UnsupportedBitDepth(bits) => bits as u16,
            _ => said.place,
        },
        group: said.group,
        channel: said.channel,
    });
    match said == refused {
        true => Ok(()),
        false => differ(&format!("{name} by the drop-in crate"), &format!("{refused:?}"), &format!("{said:?}")),
    }
}

/// How many refusals there were by number: at group and channel 0 or without them, in a later group, in a later channel, in both.
#[derive(Default)]
pub struct Places(Table<u32, 4>);

impl Places {
    pub fn note(&mut self, refused: Option<Refused>) {
        let column = |refused: &Refused| usize::from(refused.group > 0) + 2 * usize::from(refused.channel > 0);
        refused.iter().for_each(|refused| self.0.note(refused.number, column(refused)));
    }

    pub fn add(&mut self, other: &Self) {
        self.0.add(&other.0);
    }

    pub fn print(&self) {
        line("where", ["0, 0", "group", "channel", "both"]);
        self.0.print(|number| number.to_string());
    }
}
