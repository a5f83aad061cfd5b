//! The sides that decode: what each gives, and how long it takes.
use crate::clock::{least, seconds};
use crate::input::Input;
use std::hint::black_box;
use std::io::Cursor;

/// The original; ours, into room that was lent and touched before; ours by the original's names, which opens, takes
/// memory and decodes, as the original does; a plain copy of the samples.
pub fn times(input: &Input, turns: usize) -> Vec<f64> {
    let mut room = input.samples.clone();
    least(turns, || {
        let times = [
            seconds(|| original(&input.file)),
            seconds(|| ours::decode_into(&input.file, black_box(&mut room))),
            seconds(|| drop_in(&input.file)),
            seconds(|| room.copy_from_slice(black_box(&input.samples))),
        ];
        black_box(&mut room);
        times
    })
}

fn original(file: &[u8]) -> Vec<i32> {
    let mut reader = ncw::NcwReader::read(Cursor::new(black_box(file))).expect("the original opens the file");
    reader.decode_samples().expect("the original decodes the file")
}

fn drop_in(file: &[u8]) -> Vec<i32> {
    let mut reader = ours::NcwReader::read(Cursor::new(black_box(file))).expect("the drop-in opens the file");
    reader.decode_samples().expect("the drop-in decodes the file")
}

/// Whether every side gives the samples.
pub fn agree(input: &Input) -> Result<(), &'static str> {
    agree_by(input, i32::eq)
}

/// The same, where the original's samples are held to these by `same`.
pub fn agree_by(input: &Input, same: fn(&i32, &i32) -> bool) -> Result<(), &'static str> {
    let mut room = vec![0; input.samples.len()];
    let written = ours::decode_into(&input.file, &mut room).map_err(|_| "refused, into lent room")?;
    let of_original = original(&input.file);
    let alike = of_original.iter().zip(&input.samples).all(|(original, ours)| same(original, ours));
    let sides = [
        (written == room.len() && room == input.samples, "other samples in lent room"),
        (of_original.len() == input.samples.len() && alike, "other samples by the original"),
        (drop_in(&input.file) == input.samples, "other samples by the drop-in"),
    ];
    sides.iter().find(|side| !side.0).map_or(Ok(()), |side| Err(side.1))
}
