//! A picture in memory: lines of red, green and blue.
use crate::font;
use std::error::Error;
use std::fs::File;
use std::io::BufWriter;

pub type Colour = [u8; 3];

pub struct Canvas {
    width: usize,
    height: usize,
    bytes: Vec<u8>,
}

impl Canvas {
    pub fn new(width: usize, height: usize, colour: Colour) -> Self {
        Canvas { width, height, bytes: colour.repeat(width * height) }
    }

    /// Lays the colour over a point, by so much of it. What lies outside the picture is left out.
    pub fn blend(&mut self, x: usize, y: usize, colour: Colour, share: f64) {
        if x >= self.width || y >= self.height {
            return;
        }
        let at = 3 * (y * self.width + x);
        for (byte, colour) in self.bytes[at..at + 3].iter_mut().zip(colour) {
            let mixed = f64::from(*byte) * (1.0 - share) + f64::from(colour) * share;
            *byte = mixed.round().clamp(0.0, 255.0) as u8;
        }
    }

    pub fn rectangle(&mut self, (x, y): (usize, usize), (width, height): (usize, usize), colour: Colour) {
        (y..y + height).for_each(|y| (x..x + width).for_each(|x| self.blend(x, y, colour, 1.0)));
    }

    /// A line down a column between two heights that need not be whole: its ends are laid over by their share.
    pub fn column(&mut self, x: usize, top: f64, bottom: f64, colour: impl Fn(f64) -> Colour) {
        for y in top.floor().max(0.0) as usize..=bottom.ceil().max(0.0) as usize {
            let share = (bottom.min(y as f64 + 1.0) - top.max(y as f64)).clamp(0.0, 1.0);
            self.blend(x, y, colour(y as f64 + 0.5), share);
        }
    }

    /// Words from this point on, as large as the font's scale says.
    pub fn text(&mut self, (x, y): (usize, usize), words: &str, scale: usize, colour: Colour) {
        for (k, letter) in words.chars().enumerate() {
            for (line, dots) in font::glyph(letter).iter().enumerate() {
                for dot in (0..font::WIDTH).filter(|dot| dots >> (font::WIDTH - 1 - dot) & 1 == 1) {
                    let at = (x + scale * (k * (font::WIDTH + 1) + dot), y + scale * line);
                    self.rectangle(at, (scale, scale), colour);
                }
            }
        }
    }

    pub fn write(&self, path: &str) -> Result<(), Box<dyn Error>> {
        let mut encoder = png::Encoder::new(BufWriter::new(File::create(path)?), self.width as u32, self.height as u32);
        encoder.set_color(png::ColorType::Rgb);
        encoder.set_depth(png::BitDepth::Eight);
        encoder.write_header()?.write_image_data(&self.bytes)?;
        Ok(())
    }
}
