//! What is decoded, encoded or re-encoded: how long, which form, which depth, which width.
use ncw::StereoMode;
use std::fmt;

#[derive(Clone, Copy, Debug)]
pub enum Width {
    /// In every block. The depth itself is raw.
    Bits(u32),
    /// Any, by group.
    Mixed,
}

#[derive(Clone, Copy, Debug, PartialEq)]
pub enum Form {
    Mono,
    Stereo,
    MidSide,
    /// Auto, where mid/side is smaller in every group: side is narrow.
    AutoMidSide,
    /// Auto, where mid/side could be taken and is not smaller.
    AutoDirect,
    /// Auto, where frames differ in parity.
    AutoOdd,
    /// Eight channels, of which none is like another.
    Eight,
    /// Mid/side in float, without NaNs.
    Floats,
    /// The same, with many.
    FloatNans,
}

impl Form {
    pub fn channels(self) -> u16 {
        match self {
            Form::Mono => 1,
            Form::Eight => 8,
            _ => 2,
        }
    }

    pub fn mode(self) -> StereoMode {
        match self {
            Form::Mono | Form::Stereo | Form::Eight => StereoMode::Direct,
            Form::MidSide | Form::Floats | Form::FloatNans => StereoMode::MidSide,
            Form::AutoMidSide | Form::AutoDirect | Form::AutoOdd => StereoMode::Auto,
        }
    }

    /// Whether every group is mid/side.
    pub fn is_mid_side(self) -> bool {
        matches!(self, Form::MidSide | Form::AutoMidSide)
    }

    fn name(self) -> &'static str {
        match self {
            Form::Mono => "mono",
            Form::Stereo => "stereo",
            Form::MidSide => "mid/side",
            Form::AutoMidSide => "auto, mid/side",
            Form::AutoDirect => "auto, direct",
            Form::AutoOdd => "auto, odd",
            Form::Eight => "eight channels",
            Form::Floats => "float mid/side",
            Form::FloatNans => "float mid/side, NaNs",
        }
    }
}

#[derive(Clone, Copy, Debug)]
pub struct Row {
    pub seconds: usize,
    pub form: Form,
    pub depth: u16,
    pub width: Width,
}

const OF_FILES: [Form; 3] = [Form::Mono, Form::Stereo, Form::MidSide];
const ENCODED: [Form; 6] =
    [Form::Mono, Form::Stereo, Form::MidSide, Form::AutoMidSide, Form::AutoDirect, Form::AutoOdd];

type Widths = [(u16, [Width; 6]); 2];

const WIDTHS: Widths = [
    (16, [Width::Bits(2), Width::Bits(8), Width::Bits(12), Width::Bits(15), Width::Bits(16), Width::Mixed]),
    (24, [Width::Bits(3), Width::Bits(8), Width::Bits(14), Width::Bits(23), Width::Bits(24), Width::Mixed]),
];

/// Of depths that the original's encoder refuses.
const OTHER_WIDTHS: Widths = [
    (8, [Width::Bits(2), Width::Bits(4), Width::Bits(6), Width::Bits(7), Width::Bits(8), Width::Mixed]),
    (32, [Width::Bits(3), Width::Bits(8), Width::Bits(16), Width::Bits(31), Width::Bits(32), Width::Mixed]),
];

/// Every row of one length that is decoded, or is a template.
pub fn of_files(seconds: usize) -> Vec<Row> {
    of(&OF_FILES, &WIDTHS, seconds)
}

/// Every row of one length that is float.
pub fn of_floats(seconds: usize) -> Vec<Row> {
    [Form::Floats, Form::FloatNans].map(|form| Row { seconds, form, depth: 32, width: Width::Bits(32) }).into()
}

/// Every row of one length that is encoded.
pub fn to_encode(seconds: usize) -> Vec<Row> {
    of(&ENCODED, &WIDTHS, seconds)
}

/// Every row of one length whose settings the original's encoder refuses.
pub fn wide(seconds: usize) -> Vec<Row> {
    let mut rows = of(&[Form::Eight], &WIDTHS, seconds);
    rows.extend(of(&OF_FILES, &OTHER_WIDTHS, seconds));
    rows.extend(of(&[Form::Eight], &OTHER_WIDTHS, seconds));
    rows
}

fn of(forms: &[Form], widths: &Widths, seconds: usize) -> Vec<Row> {
    let depths = forms.iter().flat_map(|form| widths.iter().map(move |widths| (*form, widths)));
    let row = move |form, depth, &width| Row { seconds, form, depth, width };
    depths.flat_map(|(form, (depth, widths))| widths.iter().map(move |width| row(form, *depth, width))).collect()
}

impl fmt::Display for Row {
    fn fmt(&self, f: &mut fmt::Formatter) -> fmt::Result {
        let width = match self.width {
            Width::Mixed => "mixed".to_string(),
            Width::Bits(bits) if bits == self.depth.into() => format!("raw {bits}"),
            Width::Bits(bits) => bits.to_string(),
        };
        write!(f, "{} s | {} | {} | {width}", self.seconds, self.form.name(), self.depth)
    }
}
