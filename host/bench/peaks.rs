//! Summaries of peaks beside the decode of the same file.
use crate::clock::{least, seconds};
use crate::input::Input;
use crate::rows::{Form, Row, Width};
use ours::Peaks;
use std::hint::black_box;

const FORMS: [(Form, u16, Width); 4] = [
    (Form::Stereo, 16, Width::Bits(12)),
    (Form::Stereo, 16, Width::Mixed),
    (Form::MidSide, 16, Width::Bits(12)),
    (Form::Mono, 24, Width::Bits(14)),
];

/// So much of the decode's time building and checking may take.
const TARGET: f64 = 1.5;

/// The same pair is asked for so often in a turn: a look-up takes too little to be timed alone.
const LOOKS: u32 = 1_000;

/// Prints the tables of files of so many seconds: the times, and what they are beside the decode.
pub fn run(lengths: &[usize]) {
    println!("Microseconds, the best of several turns.\n");
    let columns = "decode | ample | exact | check | open | one | get | file | summary";
    println!("| length | form | depth | width | {columns} | ample ratio | exact ratio | check ratio | open ratio |");
    println!("|{}", "---|".repeat(17));
    let mut highest = 0.0_f64;
    for (seconds, (form, depth, width)) in lengths.iter().flat_map(|seconds| FORMS.map(|form| (*seconds, form))) {
        highest = highest.max(measure(&Row { seconds, form, depth, width }));
    }
    let verdict = if highest <= TARGET { "met" } else { "NOT met" };
    println!("\nBuilding with ample room and checking: at most {highest:.2} of decoding; {TARGET} is {verdict}.");
}

/// Prints a line: the higher ratio of building with ample room and of checking.
fn measure(row: &Row) -> f64 {
    let input = Input::of(row);
    let (file, mut samples) = (&input.file, input.samples.clone());
    let peaks = agree(&input);
    let summary = peaks.bytes();
    let (mut ample, mut exact) = (vec![1; file.len() / 8], vec![1; summary.len()]);
    let last = peaks.groups() - 1;
    let times = least(if row.seconds > 60 { 5 } else { 11 }, || {
        [
            seconds(|| ours::decode_into(black_box(file), black_box(&mut samples))),
            seconds(|| ours::build_peaks_into(black_box(file), black_box(&mut ample))),
            seconds(|| ours::build_peaks_into(black_box(file), black_box(&mut exact))),
            seconds(|| Peaks::check(black_box(summary), black_box(file))),
            seconds(|| Peaks::open(black_box(summary))),
            seconds(|| ours::read_peak(black_box(summary), last, 0)),
            seconds(|| looks(&peaks, last)) / f64::from(LOOKS),
        ]
    });
    let cells: String = times[..6].iter().map(|time| format!(" {:.1} |", time * 1e6)).collect();
    let ratios = [1, 2, 3, 4].map(|k| times[k] / times[0]);
    let ratio_cells = ratios.map(|ratio| format!(" {ratio:.3} |")).concat();
    let lengths = format!("{} | {}", file.len(), summary.len());
    println!("| {row} |{cells} {:.4} | {lengths} |{ratio_cells}", times[6] * 1e6);
    ratios[0].max(ratios[2])
}

/// A pair, looked up again and again.
fn looks(peaks: &Peaks, group: u32) -> i64 {
    let look = |_| black_box(peaks).get(black_box(group), 0).map_or(0, |pair| i64::from(pair.1));
    (0..LOOKS).map(look).sum()
}

/// The peaks, which all ways must agree on, and which must be those of the samples.
fn agree(input: &Input) -> Peaks {
    let peaks = Peaks::build(&input.file).expect("the file has a summary");
    let channels = usize::from(input.spec.channels);
    for (g, group) in input.samples.chunks(512 * channels).enumerate() {
        for c in 0..channels {
            let of_channel = || group.iter().skip(c).step_by(channels).copied();
            let peak = of_channel().min().zip(of_channel().max());
            assert!(peaks.get(g as u32, c as u32) == peak, "other peaks");
        }
    }
    let mut exact = vec![0; peaks.bytes().len()];
    assert!(ours::build_peaks_into(&input.file, &mut exact).is_ok() && exact == peaks.bytes(), "other bytes");
    assert!(Peaks::check(&exact, &input.file).expect("the file has a summary"), "no");
    peaks
}
