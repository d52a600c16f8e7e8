//! A die's capture of one eye: a raw frame buffer, a whole VRAM dump, or a PNG.

mod chunks;
mod image;
mod samples;
mod squares;

use serde::{Deserialize, Serialize};
use vb::{image_offset, COLUMNS, IMAGE_LENGTH, ROWS, VRAM_LENGTH};

use crate::failure::Failure;
use crate::files::Input;
use crate::pictures::picture::{Picture, LARGEST_SCALE, SHADES};
use samples::Samples;
use squares::{each_row, Rule};

/// The largest threshold: every sample is then nearest to one level.
pub const LARGEST_THRESHOLD: u8 = 42;

/// What a PNG's pixel must be.
const ALLOWED: &str = "it must be opaque red or grey of 00, 55, AA or FF (values 0 to 3)";

/// Which image of a capture is meant, and how far a sample may lie from its level.
#[derive(Clone, Copy)]
pub struct Wanted {
    pub frame: u32,
    /// 0 left, 1 right.
    pub eye: u32,
    /// 0 for the levels alone.
    pub threshold: u8,
}

/// A capture, and the levels that a threshold found in it.
pub struct Capture {
    pub picture: Picture,
    pub levels: Option<Vec<Level>>,
}

/// The samples that were taken for one value.
#[derive(Clone, Debug, Deserialize, PartialEq, Eq, Serialize)]
pub struct Level {
    pub value: u8,
    /// What the value's sample should be.
    pub nominal: u8,
    pub lowest: u8,
    pub highest: u8,
    pub pixels: u64,
}

impl Capture {
    pub fn read(input: &Input, wanted: Wanted) -> Result<Capture, Failure> {
        let wrong = |rule: String| Failure::bad(input.wrong(rule));
        if input.bytes.starts_with(b"\x89PNG") {
            return Capture::of_png(&input.bytes, wanted.threshold).map_err(wrong);
        }
        let image = match input.bytes.len() {
            IMAGE_LENGTH => &input.bytes[..],
            VRAM_LENGTH => &input.bytes[image_offset(wanted.frame, wanted.eye)..][..IMAGE_LENGTH],
            _ => {
                let rule = "a capture is a raw frame buffer of 24,576 bytes, a whole VRAM of 262,144, or a PNG";
                return Err(wrong(rule.to_string()));
            }
        };
        Ok(Capture { picture: Picture::of_image(image), levels: None })
    }

    /// Reads 384 by 224 pixels, each a square of the same number of PNG pixels, in four shades of red or grey.
    fn of_png(bytes: &[u8], threshold: u8) -> Result<Capture, String> {
        let samples = Samples::read(bytes, size_fits)?;
        let value = |colour: [u8; 3]| value_of(colour, threshold);
        let allowed = match threshold {
            0 => ALLOWED.to_string(),
            _ => format!("{ALLOWED}, by at most {threshold} (--threshold)"),
        };
        let rule = Rule { value: &value, exact: threshold == 0, allowed };
        let mut values = Vec::with_capacity(COLUMNS * ROWS);
        let mut levels: Vec<Level> = (0..4).map(Level::of).collect();
        each_row(&samples, &rule, |row| {
            values.extend(row.iter().map(|dot| dot[3]));
            if threshold > 0 {
                row.iter().for_each(|dot| levels[usize::from(dot[3])].count(dot[0]));
            }
        })?;
        let levels = (threshold > 0).then_some(levels);
        Ok(Capture { picture: Picture::of_values(values), levels })
    }
}

/// The values of a PNG of 384 by 224 squares, each of one colour that has a value; `allowed` says which have. A value is
/// less than 255.
pub fn exact_values(
    bytes: &[u8],
    value: impl Fn([u8; 3]) -> Option<u8>,
    allowed: &str,
) -> Result<Vec<u8>, String> {
    let samples = Samples::read(bytes, size_fits)?;
    let rule = Rule { value: &value, exact: true, allowed: allowed.to_string() };
    let mut values = Vec::with_capacity(COLUMNS * ROWS);
    each_row(&samples, &rule, |row| values.extend(row.iter().map(|dot| dot[3])))?;
    Ok(values)
}

fn size_fits(width: usize, height: usize) -> Result<(), String> {
    let scale = width / COLUMNS;
    let fits = width == scale * COLUMNS && height == scale * ROWS;
    if fits && (1..=LARGEST_SCALE).contains(&scale) {
        return Ok(());
    }
    Err(format!(
        "the PNG has {width} by {height} pixels; it must have 384 by 224, or 2 to 16 times that"
    ))
}

/// The value whose level is at most `threshold` from a colour that is red or grey by as much.
fn value_of([red, green, blue]: [u8; 3], threshold: u8) -> Option<u8> {
    let near = |a: u8, b: u8| a.abs_diff(b) <= threshold;
    let value = SHADES.iter().position(|&shade| near(shade, red))?;
    let level = |level: u8| near(green, level) && near(blue, level);
    (level(0) || level(SHADES[value])).then_some(value as u8)
}

impl Level {
    fn of(value: u8) -> Level {
        let nominal = SHADES[value as usize];
        Level { value, nominal, lowest: 0xFF, highest: 0, pixels: 0 }
    }

    fn count(&mut self, sample: u8) {
        self.pixels += 1;
        self.lowest = self.lowest.min(sample);
        self.highest = self.highest.max(sample);
    }

    /// `value 1 (55): 4C to 60`
    pub fn text(&self) -> String {
        match self.pixels {
            0 => format!("{} ({:02X}): not seen", self.value, self.nominal),
            _ => format!(
                "{} ({:02X}): {:02X} to {:02X}",
                self.value, self.nominal, self.lowest, self.highest
            ),
        }
    }
}

#[cfg(test)]
mod tests;
