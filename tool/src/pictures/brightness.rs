//! `draw --brightness` and `compare --brightness`: what a person sees of a frame, by the display unit.

use clap::Args;
use vb::{Refusal, View, COLUMNS, DISPLAY_LENGTH, FULL_BRIGHTNESS};

use crate::failure::Failure;
use crate::files::Input;
use crate::inputs::capture::exact_values;
use crate::inputs::number;
use crate::pictures::picture::{Picture, Sheet};
use crate::pictures::views::Layout;

/// What a capture of brightness must be.
pub const CAPTURE: &str = "a capture of brightness: 86,016 bytes of 0 to 128, row by row, or a PNG";

/// What a pixel of its PNG must be.
const ALLOWED: &str =
    "it must be opaque red or grey of one of the 129 levels that draw --brightness writes";

#[derive(Args)]
pub struct BrightnessOptions {
    /// Show apparent brightness instead of pixel values: 0 to 128, from black to full red
    #[arg(long)]
    brightness: bool,
    /// BRTA, 0 to 255: how long shade 1 is lit
    #[arg(long, value_name = "N", default_value = "32", value_parser = number::byte, requires = "brightness")]
    brta: u8,
    /// BRTB, 0 to 255: how long shade 2 is lit
    #[arg(long, value_name = "N", default_value = "64", value_parser = number::byte, requires = "brightness")]
    brtb: u8,
    /// BRTC, 0 to 255: how long shade 3 is lit beyond BRTA and BRTB
    #[arg(long, value_name = "N", default_value = "32", value_parser = number::byte, requires = "brightness")]
    brtc: u8,
    /// The column table's entry for columns 0 to 3, 95 to 255; every four columns on, the entry before it
    #[arg(long, value_name = "N", default_value = "175", value_parser = number::word, requires = "brightness")]
    start: u32,
    /// Load the recommended column table first
    #[arg(long, requires = "brightness")]
    recommended_table: bool,
}

/// The brightness of an eye's pixels, row by row.
struct Seen(Vec<u8>);

impl Seen {
    fn at(&self, x: usize, y: usize) -> u8 {
        self.0[COLUMNS * y + x]
    }
}

impl BrightnessOptions {
    pub fn asked(&self) -> bool {
        self.brightness
    }

    /// The files `frameN-left-brightness.png` and so on, of a frame in VRAM.
    pub fn files(
        &self,
        vram: &mut [u8],
        frame: u32,
        eyes: Layout,
        scale: usize,
    ) -> Result<Vec<(String, Vec<u8>)>, Failure> {
        if eyes == Layout::Anaglyph {
            let rule = "--brightness has no anaglyph: take left, right, both, side-by-side or all";
            return Err(Failure::bad(rule));
        }
        if self.recommended_table {
            vb::load_column_table(vram).map_err(refused)?;
        }
        let (left, right) = (self.seen(vram, frame, 0)?, self.seen(vram, frame, 1)?);
        let mut files = Vec::new();
        let mut add = |one: Layout, name: &str, sheet: &dyn Fn() -> Sheet| {
            if eyes.shows(one) {
                let png = sheet().png(scale);
                files.push((format!("frame{frame}-{name}-brightness.png"), png));
            }
        };
        add(Layout::Left, "left", &|| Sheet::new(COLUMNS, reds(), |x, y| left.at(x, y)));
        add(Layout::Right, "right", &|| Sheet::new(COLUMNS, reds(), |x, y| right.at(x, y)));
        add(Layout::SideBySide, "side-by-side", &|| {
            Sheet::new(2 * COLUMNS, reds(), |x, y| match x {
                x if x < COLUMNS => left.at(x, y),
                x => right.at(x - COLUMNS, y),
            })
        });
        Ok(files)
    }

    /// The brightness that the model gives an eye's pixels of a frame in VRAM.
    pub fn expected(&self, vram: &mut [u8], frame: u32, eye: u32) -> Result<Picture, Failure> {
        if self.recommended_table {
            vb::load_column_table(vram).map_err(refused)?;
        }
        Ok(Picture::of_values(self.seen(vram, frame, eye)?.0))
    }

    fn seen(&self, vram: &[u8], frame: u32, eye: u32) -> Result<Seen, Failure> {
        let mut output = vec![0; DISPLAY_LENGTH];
        let durations = [self.brta, self.brtb, self.brtc];
        let view = View { frame, eye, start: self.start, durations };
        vb::display(vram, view, &mut output).map_err(refused)?;
        Ok(Seen(output))
    }
}

/// A die's capture of brightness.
pub fn captured(input: &Input) -> Result<Picture, Failure> {
    let wrong = |rule: String| Failure::bad(input.wrong(rule));
    if input.bytes.starts_with(b"\x89PNG") {
        let reds = reds();
        let level = |[red, green, blue]: [u8; 3]| {
            let level = reds.chunks(3).position(|colour| colour[0] == red)?;
            ((green, blue) == (0, 0) || (green, blue) == (red, red)).then_some(level as u8)
        };
        return exact_values(&input.bytes, level, ALLOWED).map(Picture::of_values).map_err(wrong);
    }
    if input.bytes.len() != DISPLAY_LENGTH {
        return Err(wrong(CAPTURE.to_string()));
    }
    if let Some(at) = input.bytes.iter().position(|&level| level > FULL_BRIGHTNESS) {
        let (x, y, level) = (at % COLUMNS, at / COLUMNS, input.bytes[at]);
        return Err(wrong(format!(
            "pixel ({x}, {y}) has the brightness {level}; it is at most 128"
        )));
    }
    Ok(Picture::of_values(input.bytes.clone()))
}

/// The model's brightness in grey; yellow where `seen` is brighter, cyan where it is darker.
pub fn marked(expected: &Picture, seen: &Picture, scale: usize) -> Vec<u8> {
    let full = FULL_BRIGHTNESS;
    let grey = |level: u8| [(0x66 * u32::from(level) / u32::from(full)) as u8; 3];
    let mut palette: Vec<u8> = (0..=full).flat_map(grey).collect();
    palette.extend([0xFF, 0xE0, 0x00, 0x00, 0xD0, 0xFF]);
    let at = |x: usize, y: usize| match (expected.value(x, y), seen.value(x, y)) {
        (expected, seen) if seen > expected => full + 1,
        (expected, seen) if seen < expected => full + 2,
        (expected, _) => expected,
    };
    Sheet::new(COLUMNS, palette, at).png(scale)
}

fn refused(refusal: Refusal) -> Failure {
    Failure::refused(&refusal, refusal.to_string())
}

/// The red of each brightness: 0 is black, 128 full red.
fn reds() -> Vec<u8> {
    let full = u32::from(FULL_BRIGHTNESS);
    (0..=full).flat_map(|level| [((255 * level + full / 2) / full) as u8, 0, 0]).collect()
}

#[cfg(test)]
mod tests {
    use super::*;

    #[test]
    fn the_scale_runs_from_black_to_full_red() {
        let reds = reds();
        assert_eq!(reds.len(), 129 * 3);
        assert_eq!((reds[0], reds[3 * 64], reds[3 * 128]), (0, 128, 255));
        assert!(reds.chunks(3).zip(reds.chunks(3).skip(1)).all(|(a, b)| a[0] < b[0]));
    }
}
