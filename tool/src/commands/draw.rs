//! `vbmodel draw`: VRAM and drawing registers to PNGs.

use std::path::PathBuf;

use clap::Args;
use serde::Serialize;
use vb::{Refusal, VRAM_LENGTH};

use super::Report;
use crate::failure::Failure;
use crate::files::{Input, Outputs};
use crate::inputs::number;
use crate::inputs::overlay::{laid, Overlay};
use crate::inputs::scene::{Scene, VRAM};
use crate::pictures::brightness;
use crate::pictures::views::{Layout, Views};

#[derive(Args)]
#[command(
    after_help = "Example: the demo's second frame, three times as large, as a red/cyan anaglyph
  vbmodel demo
  vbmodel draw --vram out/vram.bin --drawing out/drawing.bin --frame 1 --eye anaglyph --scale 3

An overlay is a text file of probe writes, `#` beginning a comment; a write outside the probe's ranges is reported:
  word 0x00038000 0x05FF05FF
With --as-is the frame buffer is shown as it is in VRAM, and no drawing record is needed.
A PNG has red 00, 55, AA and FF for the pixel values 0 to 3; `vbmodel compare` reads it back.
With --brightness it shows what a person sees instead: the time that a pixel's shade is lit, times the repeats of its
columns in the column table, from 0 (black) to 128 and above (full red).
Exit status: 0 drawn; 2 refused or bad input, and then nothing is written, or drawn although a write of the overlay was
refused, which is printed."
)]
pub struct Options {
    /// VRAM, 262,144 bytes; - is standard input
    #[arg(long, value_name = "FILE", required_unless_present = "state")]
    vram: Option<PathBuf>,
    /// The drawing record, 26 bytes: SPT0-3, GPLT0-3, JPLT0-3 and BKCOL as little-endian halfwords
    #[arg(long, value_name = "FILE", required_unless_present_any = ["state", "as_is"])]
    drawing: Option<PathBuf>,
    /// A saved state, which holds both
    #[arg(long, value_name = "FILE", conflicts_with_all = ["vram", "drawing"])]
    state: Option<PathBuf>,
    /// Show the frame buffer as it is in VRAM, without drawing
    #[arg(long, conflicts_with = "drawing")]
    as_is: bool,
    /// Writes of the probe that are made in VRAM before drawing: lines of byte, half or word, an address and a value
    #[arg(long, value_name = "FILE", conflicts_with = "as_is")]
    overlay: Option<PathBuf>,
    /// The frame buffer that is drawn and shown, 0 or 1
    #[arg(long, value_name = "N", default_value = "0", value_parser = number::word)]
    frame: u32,
    /// Which pictures to write
    #[arg(long, value_enum, default_value_t = Layout::Both)]
    eye: Layout,
    /// Enlarge each pixel N times, 1 to 16
    #[arg(long, value_name = "N", default_value = "1", value_parser = number::scale)]
    scale: usize,
    /// The folder for the pictures
    #[arg(long, value_name = "FOLDER", default_value = "out")]
    out: PathBuf,
    /// Where to write VRAM afterwards
    #[arg(long, value_name = "FILE")]
    save_vram: Option<PathBuf>,
    #[command(flatten)]
    seen: brightness::BrightnessOptions,
    /// Print JSON
    #[arg(long)]
    pub json: bool,
}

pub fn run(options: &Options) -> Result<Report, Failure> {
    let (mut vram, overlay) = shown(options)?;
    let Options { frame, eye, scale, as_is, .. } = *options;
    let files = if options.seen.asked() {
        options.seen.files(&mut vram, frame, eye, scale)?
    } else {
        Views::of(&vram, frame).files(frame, eye, scale)
    };
    let mut outputs = Outputs::default();
    for (name, png) in files {
        outputs.add_in(&options.out, name, png);
    }
    if let Some(path) = &options.save_vram {
        outputs.add(path, vram);
    }
    outputs.write()?;
    let laid = overlay.as_ref().map(Overlay::text).unwrap_or_default();
    let reported = Reported { frame, scale, as_is, overlay, written: outputs.paths() };
    let lines: String = reported.written.iter().map(|path| format!("written: {path}\n")).collect();
    let done = if as_is { "as it is in VRAM" } else { "drawn, both eyes" };
    let status = if reported.overlay.as_ref().is_none_or(Overlay::is_whole) { 0 } else { 2 };
    Ok(Report::new(format!("{laid}frame {frame} {done}\n{lines}"), &reported, status))
}

/// VRAM after drawing, or as it is, and what became of an overlay's writes.
fn shown(options: &Options) -> Result<(Vec<u8>, Option<Overlay>), Failure> {
    let Options { vram, drawing, state, frame, .. } = options;
    let scene = Scene { vram: vram.clone(), drawing: drawing.clone(), state: state.clone() };
    if !options.as_is {
        let mut read = scene.read()?;
        let overlay = options.overlay.as_deref().map(|path| laid(path, &mut read.vram));
        let overlay = overlay.transpose()?;
        return Ok((read.drawn(*frame)?, overlay));
    }
    let vram = match (vram, state) {
        (Some(path), _) => Input::read(path, VRAM)?,
        _ => scene.read()?.vram,
    };
    let refused = |refusal: Refusal, message: String| Err(Failure::refused(&refusal, message));
    if vram.bytes.len() != VRAM_LENGTH {
        let refusal = Refusal::VramLength { given: vram.bytes.len() };
        return refused(refusal.clone(), vram.wrong(&refusal));
    }
    if *frame > 1 {
        let refusal = Refusal::Frame { given: *frame };
        return refused(refusal.clone(), refusal.to_string());
    }
    Ok((vram.bytes, None))
}

#[derive(Serialize)]
struct Reported {
    frame: u32,
    scale: usize,
    as_is: bool,
    #[serde(skip_serializing_if = "Option::is_none")]
    overlay: Option<Overlay>,
    written: Vec<String>,
}
