//! A few frames of a file beside the whole decode, which is what the original has for them.
use crate::clock::{least, seconds};
use crate::input::Input;
use crate::rows::{Form, Row, Width};
use std::hint::black_box;
use std::io::Cursor;

/// What is asked for, in words, and the ranges of a file of so many frames: first frame and count.
type Asked = (&'static str, fn(u32) -> Vec<(u32, u32)>);

const ASKED: [Asked; 5] = [
    ("none", |_| vec![(0, 0)]),
    ("400 from 90,000", |_| vec![(90_000, 400)]),
    ("the last 400", |frames| vec![(frames - 400, 400)]),
    ("all, 4,096 at a time", |frames| each(frames, 4_096)),
    ("all, 131,072 at a time", |frames| each(frames, 131_072)),
];

fn each(frames: u32, piece: u32) -> Vec<(u32, u32)> {
    (0..frames).step_by(piece as usize).map(|first| (first, piece.min(frames - first))).collect()
}

const FORMS: [(Form, u16, Width); 3] =
    [(Form::Stereo, 16, Width::Bits(12)), (Form::MidSide, 24, Width::Bits(14)), (Form::Stereo, 24, Width::Mixed)];

/// Prints the table of files of so many seconds.
pub fn run(lengths: &[usize]) {
    println!("Microseconds, the best of several turns. Ratios are to the Rust, which decodes the whole file.\n");
    let whole = "length | form | depth | width | asked | Rust, whole | lent, whole | opening";
    println!("| {whole} | lent | drop-in | lent ratio | drop-in ratio |");
    println!("|{}", "---|".repeat(12));
    for (seconds, (form, depth, width)) in lengths.iter().flat_map(|seconds| FORMS.map(|form| (*seconds, form))) {
        let row = Row { seconds, form, depth, width };
        let input = Input::of(&row);
        let reader = ours::NcwReader::read(Cursor::new(input.file.clone())).expect("the drop-in opens the file");
        ASKED.iter().for_each(|asked| measure(&row, &input, &reader, asked));
    }
}

type Reader = ours::NcwReader<Cursor<Vec<u8>>>;

/// Prints a line.
fn measure(row: &Row, input: &Input, reader: &Reader, (name, ranges): &Asked) {
    let ranges = ranges(reader.header.num_samples);
    agree(input, reader, &ranges);
    let mut room = input.samples.clone();
    let times = least(if row.seconds > 60 { 5 } else { 11 }, || {
        let wholes =
            [seconds(|| original(&input.file)), seconds(|| ours::decode_into(&input.file, black_box(&mut room)))];
        let [opening, lent, drop_in] = warm(ranges.len(), || {
            [
                seconds(|| ours::open(black_box(&input.file))),
                seconds(|| ranges.iter().for_each(|range| drop(lent(input, *range, black_box(&mut room))))),
                seconds(|| ranges.iter().for_each(|range| drop(black_box(reader.read_frames(range.0, range.1))))),
            ]
        });
        [wholes[0], wholes[1], opening, lent, drop_in]
    });
    let cells: String = times.iter().map(|time| format!(" {:.1} |", time * 1e6)).collect();
    println!("| {row} | {name} |{cells} {:.2} | {:.2} |", times[0] / times[3], times[0] / times[4]);
}

/// The least time where one call takes so little that the caches, which the whole decode has taken, would be what is timed.
fn warm(calls: usize, turn: impl FnMut() -> [f64; 3]) -> [f64; 3] {
    let times = least(if calls == 1 { 50 } else { 1 }, turn);
    [times[0], times[1], times[2]]
}

fn original(file: &[u8]) -> Vec<i32> {
    let mut reader = ncw::NcwReader::read(Cursor::new(black_box(file))).expect("the original opens the file");
    reader.decode_samples().expect("the original decodes the file")
}

fn lent(input: &Input, (first, count): (u32, u32), room: &mut [i32]) -> Result<usize, ours::NcwError> {
    ours::read_frames_into(black_box(&input.file), first, count, room)
}

/// Whether both ways give the cut of the samples.
fn agree(input: &Input, reader: &Reader, ranges: &[(u32, u32)]) {
    let channels = usize::from(input.spec.channels);
    for (first, count) in ranges {
        let cut = &input.samples[*first as usize * channels..(*first + *count) as usize * channels];
        let mut room = vec![0; cut.len()];
        let written = lent(input, (*first, *count), &mut room).expect("the frames are there");
        assert!(written == cut.len() && room == cut, "other samples in lent room");
        assert!(
            reader.read_frames(*first, *count).expect("the frames are there") == cut,
            "other samples by the drop-in"
        );
    }
}
