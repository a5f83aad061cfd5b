//! The waveforms: of every column of the picture the smallest and the largest of the groups that it stands for.
use crate::canvas::{Canvas, Colour};
use crate::font;
use ncw::Peaks;
use std::ops::Range;

const PAPER: Colour = [0xF7, 0xF8, 0xFA];
const PANEL: Colour = [0xFF, 0xFF, 0xFF];
const RIM: Colour = [0xC9, 0xCF, 0xD8];
const GRID: Colour = [0xE8, 0xEB, 0xF0];
const CENTRE: Colour = [0x9A, 0xA4, 0xB2];
const WORDS: Colour = [0x4B, 0x55, 0x63];
/// A waveform at its centre line, and far from it.
const NEAR: Colour = [0x1D, 0x4E, 0x89];
const FAR: Colour = [0x3F, 0xA7, 0xD6];

const LEFT: usize = 96;
const RIGHT: usize = 24;
const TOP: usize = 22;
const BOTTOM: usize = 40;
const BETWEEN: usize = 26;

/// Bars of so many columns or more are drawn apart.
const WIDE: usize = 4;

/// Marks of an axis are so far apart or more, in columns.
const APART: f64 = 90.0;

const GROUP: u32 = 512;

pub struct Wave<'a> {
    pub peaks: &'a Peaks,
    /// Frames a second, where it is known: a summary does not say it.
    pub rate: Option<u32>,
}

/// Where a channel is drawn.
struct Panel {
    x: usize,
    y: usize,
    width: usize,
    height: usize,
    /// The sample that its upper rim stands for.
    most: f64,
}

impl Panel {
    fn height_of(&self, sample: f64) -> f64 {
        self.y as f64 + self.height as f64 / 2.0 * (1.0 - sample / self.most)
    }
}

impl Wave<'_> {
    pub fn drawn(&self, width: usize, height: usize) -> Canvas {
        let mut canvas = Canvas::new(width, height, PAPER);
        let channels = self.peaks.channels() as usize;
        let most = self.most();
        let shown = channels.min((height - TOP - BOTTOM) / (BETWEEN + 20)).max(1);
        let each = (height - TOP - BOTTOM - BETWEEN * (shown - 1)) / shown;
        for channel in 0..shown {
            let y = TOP + channel * (each + BETWEEN);
            let panel = Panel { x: LEFT, y, width: width - LEFT - RIGHT, height: each, most };
            self.frame(&mut canvas, &panel);
            self.columns(&mut canvas, &panel, channel as u32);
            self.words(&mut canvas, &panel, channel);
        }
        self.axis(&mut canvas, (LEFT, height - BOTTOM), width - LEFT - RIGHT);
        canvas
    }

    /// The least power of two that no peak is beyond.
    fn most(&self) -> f64 {
        let beyond = self.peaks.pairs().map(|(smallest, largest)| smallest.unsigned_abs().max(largest.unsigned_abs()));
        f64::from(beyond.max().unwrap_or(1).max(1)).log2().ceil().exp2()
    }

    /// How far apart the marks of the axis are, and how many frames that is.
    fn marks(&self, width: usize) -> (f64, f64) {
        let rate = self.rate.map_or(1.0, f64::from);
        let all = f64::from(self.peaks.frames()) / rate;
        let least = APART * all / width as f64;
        let ten = 10_f64.powf(least.max(1e-9).log10().floor());
        let step = [1.0, 2.0, 5.0, 10.0].map(|times| times * ten).into_iter().find(|step| *step >= least);
        let step = step.unwrap_or(10.0 * ten);
        (step, step * rate)
    }

    /// The columns of the marks, each with its number.
    fn marked(&self, width: usize) -> Vec<(usize, f64)> {
        let frames = f64::from(self.peaks.frames());
        let (step, each) = self.marks(width);
        let count = if frames > 0.0 { (frames / each) as usize } else { 0 };
        (0..=count).map(|k| ((width as f64 * k as f64 * each / frames.max(1.0)) as usize, step * k as f64)).collect()
    }

    fn frame(&self, canvas: &mut Canvas, panel: &Panel) {
        let Panel { x, y, width, height, .. } = *panel;
        canvas.rectangle((x - 1, y - 1), (width + 2, height + 2), RIM);
        canvas.rectangle((x, y), (width, height), PANEL);
        for (column, _) in self.marked(width).into_iter().filter(|mark| 0 < mark.0 && mark.0 < width) {
            canvas.rectangle((x + column, y), (1, height), GRID);
        }
        for quarter in [1, 3] {
            canvas.rectangle((x, y + quarter * height / 4), (width, 1), GRID);
        }
    }

    /// The groups that a column stands for, one or more.
    fn groups(&self, column: usize, width: usize) -> Range<u32> {
        let frames = u64::from(self.peaks.frames());
        let frame = |column: usize| (frames * column as u64 / width as u64).min(frames - 1);
        let group = |frame: u64| (frame / u64::from(GROUP)) as u32;
        let first = group(frame(column));
        first..group(frame(column + 1).max(frame(column) + 1) - 1).max(first) + 1
    }

    fn columns(&self, canvas: &mut Canvas, panel: &Panel, channel: u32) {
        let Panel { x, y, width, height, .. } = *panel;
        let centre = panel.height_of(0.0);
        let colour = |line: f64| {
            let far = ((line - centre).abs() / (height as f64 / 2.0)).clamp(0.0, 1.0);
            [0, 1, 2].map(|k| (f64::from(NEAR[k]) * (1.0 - far) + f64::from(FAR[k]) * far).round() as u8)
        };
        let are_wide = width >= WIDE * self.peaks.groups().max(1) as usize;
        for column in 0..if self.peaks.groups() > 0 { width } else { 0 } {
            let groups = self.groups(column, width);
            if are_wide && column + 1 < width && self.groups(column + 1, width).start > groups.start {
                continue;
            }
            let pairs = groups.filter_map(|group| self.peaks.get(group, channel));
            let all = pairs.reduce(|one, other| (one.0.min(other.0), one.1.max(other.1)));
            if let Some((smallest, largest)) = all {
                let (top, bottom) = (panel.height_of(largest.into()), panel.height_of(smallest.into()));
                let less = (1.0 - (bottom - top)).max(0.0) / 2.0;
                let within = |line: f64| line.clamp(y as f64, (y + height) as f64);
                canvas.column(x + column, within(top - less), within(bottom + less), colour);
            }
        }
        (x..x + width).for_each(|x| canvas.blend(x, centre as usize, CENTRE, 0.55));
    }

    /// The numbers beside a panel, and the channel's within it.
    fn words(&self, canvas: &mut Canvas, panel: &Panel, channel: usize) {
        let least = panel.y + panel.height;
        for (sample, line) in [(panel.most, panel.y), (0.0, panel.y + panel.height / 2), (-panel.most, least)] {
            let words = number(sample);
            let from = panel.x - 10 - font::width(&words);
            canvas.rectangle((panel.x - 6, line.min(least - 1)), (5, 1), RIM);
            canvas.text((from, line.saturating_sub(font::HEIGHT / 2)), &words, 1, WORDS);
        }
        let words = format!("channel {channel}");
        let (wide, high) = (2 * font::width(&words) + 12, 2 * font::HEIGHT + 8);
        if panel.height > 2 * high {
            canvas.rectangle((panel.x + panel.width - wide - 6, panel.y + 6), (wide, high), PAPER);
            canvas.text((panel.x + panel.width - wide, panel.y + 10), &words, 2, WORDS);
        }
    }

    /// Seconds, or frames where nothing says how many a second has.
    fn axis(&self, canvas: &mut Canvas, (x, y): (usize, usize), width: usize) {
        let (step, _) = self.marks(width);
        let digits = (-step.log10().floor()).clamp(0.0, 6.0) as usize;
        for (column, mark) in self.marked(width) {
            let words = match self.rate {
                Some(_) => format!("{mark:.digits$} s"),
                None => number(mark),
            };
            let half = font::width(&words) / 2;
            canvas.rectangle((x + column, y), (1, 5), RIM);
            canvas.text(((x + column).saturating_sub(half), y + 11), &words, 1, WORDS);
        }
        if self.rate.is_none() {
            canvas.text((x, y + 25), "frames", 1, WORDS);
        }
    }
}

/// With commas.
fn number(value: f64) -> String {
    let digits = format!("{:.0}", value.abs());
    let ends = digits.len() % 3;
    let mut words = String::from(if value < 0.0 { "-" } else { "" });
    for (k, digit) in digits.chars().enumerate() {
        if k > 0 && k % 3 == ends {
            words.push(',');
        }
        words.push(digit);
    }
    words
}
