//! `vbmodel why`: what covers a pixel, by the independent model, and the bytes it answers to, by the proved library.

use clap::{Args, ValueEnum};
use model::world::Eye;
use vb::{image_offset, COLUMNS, ROWS};

use super::Report;
use crate::failure::Failure;
use crate::inputs::number;
use crate::inputs::scene::{Read, Scene};
use crate::pictures::explain::{explain, Explanation, Question};

/// The exit status where the independent model and the proved library disagree.
pub const FAULT: i32 = 3;

#[derive(Args)]
#[command(after_help = "Example: why does the ball of the demo have this pixel?
  vbmodel demo
  vbmodel why left 192 120 --vram out/vram.bin --drawing out/drawing.bin

The answer is computed by the independent model, which shares no code with the proved library; the library's own value
of the pixel is printed next to it. The list of the bytes that the pixel answers to is the library's, and proved; the
independent model's must be the same. One memory gives frames 0 and 1 the same pixels, so no frame is named.
Exit status: 0 answered; 2 refused or bad input; 3 the independent model and the proved library differ, in the value or
in the list, which is a fault of one of them and not of a die.")]
pub struct Options {
    /// Which eye's picture
    #[arg(value_enum)]
    eye: Side,
    /// Column, 0 to 383
    #[arg(value_parser = number::word)]
    x: u32,
    /// Row, 0 to 223
    #[arg(value_parser = number::word)]
    y: u32,
    #[command(flatten)]
    scene: Scene,
    /// List the objects that do not cover the pixel too, and why
    #[arg(long)]
    objects: bool,
    /// Print JSON
    #[arg(long)]
    pub json: bool,
}

#[derive(Clone, Copy, ValueEnum)]
enum Side {
    Left,
    Right,
}

pub fn run(options: &Options) -> Result<Report, Failure> {
    let (x, y) = (options.x, options.y);
    if x as usize >= COLUMNS || y as usize >= ROWS {
        return Err(Failure::bad(format!(
            "pixel ({x}, {y}) is never drawn; columns are 0 to 383 and rows 0 to 223"
        )));
    }
    let eye = match options.eye {
        Side::Left => Eye::Left,
        Side::Right => Eye::Right,
    };
    let scene = options.scene.read()?;
    let library_value = drawn_by_library(&scene, eye, x, y)?;
    let (vram, drawing) = (scene.vram.bytes.as_slice(), &scene.drawing);
    let every_object = options.objects;
    let reported = explain(&Question { vram, drawing, eye, x, y, library_value, every_object })?;
    Ok(report(&reported))
}

fn report(reported: &Explanation) -> Report {
    Report::new(reported.text(), reported, if reported.agree { 0 } else { FAULT })
}

/// The library's value of the pixel; its refusals come first.
fn drawn_by_library(scene: &Read, eye: Eye, x: u32, y: u32) -> Result<u8, Failure> {
    let vram = scene.drawn(0)?;
    Ok(vb::pixel(&vram[image_offset(0, eye.number())..], x as usize, y as usize))
}

#[cfg(test)]
mod tests {
    use super::*;

    #[test]
    fn a_disagreement_of_model_and_library_has_its_own_status() {
        let (vram, drawing) = (vec![0; vb::VRAM_LENGTH], vb::Drawing::default());
        for (library_value, status) in [(0, 0), (1, 3)] {
            let (vram, drawing, eye) = (vram.as_slice(), &drawing, Eye::Left);
            let asked =
                Question { vram, drawing, eye, x: 3, y: 5, library_value, every_object: false };
            assert_eq!(report(&explain(&asked).unwrap()).status, status);
        }
    }
}
