//! The peaks of an NCW file, drawn as a picture: one waveform for each channel, one above the other.
#![forbid(unsafe_code)]

mod canvas;
mod font;
mod note;
mod wave;

use ncw::{NcwReader, Peaks};
use std::error::Error;
use std::fs;
use std::io::Cursor;
use std::process::exit;
use wave::Wave;

const USAGE: &str = "\
usage: picture FILE.ncw OUT.png [WIDTH HEIGHT]            the peaks of a file
       picture --summary FILE OUT.png [WIDTH HEIGHT]      those that a summary holds
       picture --note FILE.ncw                            makes up a note to draw";

const SIZE: (usize, usize) = (1_280, 560);

fn main() {
    let args: Vec<String> = std::env::args().skip(1).collect();
    let done = match args.iter().map(String::as_str).collect::<Vec<_>>()[..] {
        ["--note", path] => note::write(path),
        ["--summary", summary, out] => of_summary(summary, out, SIZE),
        ["--summary", summary, out, width, height] => {
            size(width, height).and_then(|size| of_summary(summary, out, size))
        }
        [file, out] if !file.starts_with("--") => of_file(file, out, SIZE),
        [file, out, width, height] if !file.starts_with("--") => {
            size(width, height).and_then(|size| of_file(file, out, size))
        }
        _ => Err(USAGE.into()),
    };
    if let Err(error) = done {
        eprintln!("{error}");
        exit(2);
    }
}

fn size(width: &str, height: &str) -> Result<(usize, usize), Box<dyn Error>> {
    let (width, height) = (width.parse()?, height.parse()?);
    match (200..=10_000).contains(&width) && (120..=10_000).contains(&height) {
        true => Ok((width, height)),
        false => Err("A picture has 200 to 10,000 columns and 120 to 10,000 lines.".into()),
    }
}

/// The summary is built in memory. The file also says how many frames a second has.
fn of_file(path: &str, out: &str, size: (usize, usize)) -> Result<(), Box<dyn Error>> {
    let file = fs::read(path)?;
    let peaks = Peaks::build(&file)?;
    let rate = NcwReader::read(Cursor::new(&file))?.header.sample_rate;
    println!("{path}: {} bytes, its summary {} bytes", file.len(), peaks.bytes().len());
    draw(&peaks, Some(rate), out, size)
}

fn of_summary(path: &str, out: &str, size: (usize, usize)) -> Result<(), Box<dyn Error>> {
    draw(&Peaks::open(&fs::read(path)?)?, None, out, size)
}

fn draw(peaks: &Peaks, rate: Option<u32>, out: &str, size: (usize, usize)) -> Result<(), Box<dyn Error>> {
    let canvas = Wave { peaks, rate }.drawn(size.0, size.1);
    canvas.write(out)?;
    println!("{out}: {} frames in {} groups, {} channels", peaks.frames(), peaks.groups(), peaks.channels());
    Ok(())
}
