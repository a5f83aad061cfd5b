//! What encoding and re-encoding share: three sides that write a file.
use crate::clock::{least, seconds};
use crate::input::Input;
use std::hint::black_box;

/// What each side makes of an input.
pub struct Sides {
    pub original: fn(&Input) -> Vec<u8>,
    /// Ours, into room that was lent.
    pub lent: fn(&Input, &mut [u8]) -> Result<usize, ours::NcwError>,
    /// Ours by the original's name, which takes memory, as the original does.
    pub drop_in: fn(&Input) -> Vec<u8>,
}

impl Sides {
    /// How long each takes. The room that is lent was touched before.
    pub fn times(&self, input: &Input, turns: usize) -> Vec<f64> {
        let mut room = input.file.clone();
        least(turns, || {
            let times = [
                seconds(|| (self.original)(input)),
                seconds(|| (self.lent)(input, black_box(&mut room))),
                seconds(|| (self.drop_in)(input)),
            ];
            black_box(&mut room);
            times
        })
    }

    /// Whether every side gives the bytes that the original gives.
    pub fn agree(&self, input: &Input) -> Result<(), &'static str> {
        let file = (self.original)(input);
        let mut room = vec![0; file.len()];
        let written = (self.lent)(input, &mut room).map_err(|_| "refused, into lent room")?;
        let sides = [
            (written == room.len() && room == file, "other bytes in lent room"),
            ((self.drop_in)(input) == file, "other bytes by the drop-in"),
        ];
        sides.iter().find(|side| !side.0).map_or(Ok(()), |side| Err(side.1))
    }
}
