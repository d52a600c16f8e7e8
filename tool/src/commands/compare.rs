//! `vbmodel compare`: the model's frame compared with a die's captures.

use std::path::PathBuf;

use clap::Args;
use serde::Serialize;
use vb::{grouped, COLUMNS, ROWS, VRAM_LENGTH};

use super::{why, Report};
use crate::eye::{Eye, Eyes};
use crate::failure::Failure;
use crate::files::{Input, Outputs};
use crate::inputs::capture::{Capture, Level, Wanted};
use crate::inputs::number;
use crate::inputs::scene::{Read, Scene, CAPTURE};
use crate::judge::{missing, Verdict};
use crate::pictures::brightness;
use crate::pictures::difference::{differences, Bounds, Difference};
use crate::pictures::explain::{registers, FAULT};
use crate::pictures::picture::Picture;
use crate::pictures::sources::{Share, Sources};
use crate::pictures::views::Views;
use crate::reports::json::json;

/// How many worlds and objects are listed; the JSON has all.
const LISTED: usize = 10;

#[derive(Args)]
#[command(after_help = "Example: a picture against the model's, then the pixel that differs
  vbmodel demo
  vbmodel compare --vram out/vram.bin --drawing out/drawing.bin --frame 1 --eyes left --left out/frame0-left.png --why
  vbmodel why left 297 9 --vram out/vram.bin --drawing out/drawing.bin

A capture is a raw frame buffer of 24,576 bytes (rows 224 to 255 are not compared), a whole VRAM of 262,144 bytes, or a
PNG of 384 by 224 pixels, or 2 to 16 times that, in opaque red or grey of 00, 55, AA and FF for the values 0 to 3. With
--threshold a PNG's sample may lie that far from its level, as analogue captures do; what was taken for each level is
printed. Where something differs, a PNG marks it: the model's picture in grey, yellow where the capture is brighter and
cyan where it is darker. With --brightness both are apparent brightness, 0 to 128, by the display unit: the capture is
86,016 bytes, row by row, or a PNG in the reds that `draw --brightness` writes.

Both eyes must have a capture; --eyes left or --eyes right asks for one.
Exit status: 0 pass, every capture is equal; 1 fail, one differs; 2 invalid, something could not be judged or is refused,
and then nothing is written; 3 with --why, where the independent model and the proved library differ.")]
pub struct Options {
    #[command(flatten)]
    scene: Scene,
    /// The frame buffer that is drawn, 0 or 1
    #[arg(long, value_name = "N", default_value = "0", value_parser = number::word)]
    frame: u32,
    /// The die's capture of the left eye
    #[arg(long, value_name = "FILE", required_unless_present_any = ["right", "capture"])]
    left: Option<PathBuf>,
    /// The die's capture of the right eye
    #[arg(long, value_name = "FILE")]
    right: Option<PathBuf>,
    /// The die's whole VRAM, taken for both eyes
    #[arg(long, value_name = "FILE", conflicts_with_all = ["left", "right"])]
    capture: Option<PathBuf>,
    /// The eyes that must have a capture; a further capture is judged too
    #[arg(long, value_enum, value_name = "EYES", default_value = "both")]
    eyes: Eyes,
    /// How far a PNG's sample may lie from 00, 55, AA or FF, 1 to 42 [default: not at all]
    #[arg(long, value_name = "N", value_parser = number::threshold)]
    threshold: Option<u8>,
    /// How many differing pixels to list for each eye
    #[arg(long, value_name = "N", default_value = "10", value_parser = number::word)]
    first: u32,
    #[command(flatten)]
    seen: brightness::BrightnessOptions,
    /// Group the differing pixels by the world or object that gives the model's value there
    #[arg(long)]
    why: bool,
    /// Enlarge each pixel so many times, 1 to 16
    #[arg(long, value_name = "N", default_value = "1", value_parser = number::scale)]
    scale: usize,
    /// The folder for the PNG that marks the differences
    #[arg(long, value_name = "FOLDER", default_value = "out")]
    out: PathBuf,
    /// Print JSON
    #[arg(long)]
    pub json: bool,
}

/// What is reported; its members are those of the JSON.
#[derive(Serialize)]
struct Reported {
    verdict: Verdict,
    vram: String,
    drawing: String,
    frame: u32,
    eyes: Vec<EyeReported>,
    written: Vec<String>,
}

#[derive(Serialize)]
struct EyeReported {
    eye: Eye,
    capture: String,
    verdict: Verdict,
    different: usize,
    first: Vec<Difference>,
    bounds: Option<Bounds>,
    /// With --why: what gives the model's values there, and whether the independent model has them too.
    #[serde(skip_serializing_if = "Option::is_none")]
    why: Option<Vec<Share>>,
    #[serde(skip_serializing_if = "Option::is_none")]
    models_agree: Option<bool>,
    #[serde(skip_serializing_if = "Option::is_none")]
    levels: Option<Vec<Level>>,
}

/// What is reported where the captures could not be judged.
#[derive(Serialize)]
struct Invalid<'a> {
    verdict: Verdict,
    #[serde(flatten)]
    failure: &'a Failure,
}

pub fn run(options: &Options) -> Result<Report, Failure> {
    compared(options).or_else(|failure| {
        let reported = Invalid { verdict: Verdict::Invalid, failure: &failure };
        let json = json(&reported);
        Ok(Report { text: String::new(), json, status: 2, failure: Some(failure), aside: false })
    })
}

fn compared(options: &Options) -> Result<Report, Failure> {
    if options.seen.asked()
        && (options.why || options.threshold.is_some() || options.capture.is_some())
    {
        return Err(Failure::bad(
            "--brightness goes with neither --why, --threshold nor --capture",
        ));
    }
    let scene = options.scene.read()?;
    let mut vram = scene.drawn(options.frame)?;
    let views = Views::of(&vram, options.frame);
    let mut outputs = Outputs::default();
    let mut eyes = Vec::new();
    for (eye, input) in captures(options)? {
        let number = eye.number();
        let threshold = options.threshold.unwrap_or(0);
        let (expected, capture) = if options.seen.asked() {
            let picture = brightness::captured(&input)?;
            let expected = options.seen.expected(&mut vram, options.frame, number)?;
            (expected, Capture { picture, levels: None })
        } else {
            let wanted = Wanted { frame: options.frame, eye: number, threshold };
            (views.eye(eye).clone(), Capture::read(&input, wanted)?)
        };
        let found = differences(&expected, &capture.picture);
        if !found.is_empty() {
            mark(options, &mut outputs, eye, &expected, &capture.picture);
        }
        let mut reported = EyeReported::of(eye, &input, &found, options.first as usize);
        reported.levels = capture.levels;
        if let (true, Some(bounds)) = (options.why, reported.bounds) {
            reported.explain(&scene, eye, &bounds, &found);
        }
        eyes.push(reported);
    }
    outputs.write()?;
    Ok(report(options, &scene, eyes, &outputs))
}

/// The captures with their eyes; a whole VRAM is one of each.
fn captures(options: &Options) -> Result<Vec<(Eye, Input)>, Failure> {
    let mut inputs = Vec::new();
    if let Some(path) = &options.capture {
        let input = Input::read(path, "a whole VRAM of 262,144 bytes")?;
        if input.bytes.len() != VRAM_LENGTH {
            let rule = "a capture of both eyes is a whole VRAM of 262,144 bytes";
            return Err(Failure::bad(input.wrong(rule)));
        }
        inputs.push((Eye::Left, input.clone()));
        inputs.push((Eye::Right, input));
    }
    for (eye, path) in [(Eye::Left, &options.left), (Eye::Right, &options.right)] {
        if let Some(path) = path {
            let what = if options.seen.asked() { brightness::CAPTURE } else { CAPTURE };
            let input = Input::read(path, what)?;
            if options.left == options.right && input.bytes.len() != VRAM_LENGTH {
                let rule =
                    "is given for both eyes; each eye needs its own capture, or one whole VRAM";
                return Err(Failure::bad(format!("{}: {rule}", input.name())));
            }
            inputs.push((eye, input));
        } else if options.capture.is_none() && options.eyes.need(eye) {
            return Err(Failure::bad(missing(eye, options.eyes)));
        }
    }
    Ok(inputs)
}

/// Adds the picture that marks what differs.
fn mark(options: &Options, outputs: &mut Outputs, eye: Eye, expected: &Picture, seen: &Picture) {
    let frame = options.frame;
    let (name, png) = if options.seen.asked() {
        let png = brightness::marked(expected, seen, options.scale);
        (format!("compare-frame{frame}-{eye}-brightness.png"), png)
    } else {
        (format!("compare-frame{frame}-{eye}.png"), expected.marked(seen, options.scale))
    };
    outputs.add_in(&options.out, name, png);
}

fn report(options: &Options, scene: &Read, eyes: Vec<EyeReported>, outputs: &Outputs) -> Report {
    let fault = eyes.iter().any(|eye| eye.models_agree == Some(false));
    let reported = Reported {
        verdict: match eyes.iter().all(|eye| eye.verdict == Verdict::Pass) {
            _ if fault => Verdict::Fault,
            true => Verdict::Pass,
            false => Verdict::Fail,
        },
        vram: scene.vram.name(),
        drawing: scene.drawing_file.name(),
        frame: options.frame,
        eyes,
        written: outputs.paths(),
    };
    let mut text: String = reported.eyes.iter().map(|eye| eye.text(options.frame)).collect();
    text.extend(reported.written.iter().map(|path| format!("written: {path}\n")));
    let status = match reported.verdict {
        Verdict::Fault => why::FAULT,
        Verdict::Pass => 0,
        _ => 1,
    };
    Report::new(text, &reported, status)
}

impl EyeReported {
    fn of(eye: Eye, capture: &Input, found: &[Difference], first: usize) -> EyeReported {
        EyeReported {
            eye,
            capture: capture.name(),
            verdict: if found.is_empty() { Verdict::Pass } else { Verdict::Fail },
            different: found.len(),
            first: found.iter().take(first).copied().collect(),
            bounds: Bounds::of(found),
            why: None,
            models_agree: None,
            levels: None,
        }
    }

    fn explain(&mut self, scene: &Read, eye: Eye, bounds: &Bounds, found: &[Difference]) {
        let vram = &scene.vram.bytes;
        let sources = Sources::of(vram, &registers(&scene.drawing), eye.model(), bounds);
        self.why = Some(sources.shares(vram, found));
        self.models_agree = Some(sources.agree(found));
    }

    fn text(&self, frame: u32) -> String {
        let all = grouped((COLUMNS * ROWS) as u64);
        let count = grouped(self.different as u64);
        let found = match self.verdict {
            Verdict::Pass => format!("pass, {all} pixels are equal"),
            _ => format!("fail, {count} of {all} pixels differ"),
        };
        let mut text = format!("{} eye, frame {frame}: {found}\n", self.eye);
        if let Some(levels) = &self.levels {
            let reported: Vec<String> = levels.iter().map(Level::text).collect();
            text += &format!("  levels taken: {}\n", reported.join(", "));
        }
        for pixel in &self.first {
            let Difference { x, y, expected, seen } = pixel;
            text += &format!("  column {x}, row {y}: expected {expected}, seen {seen}\n");
        }
        if self.different > self.first.len() {
            let more = grouped((self.different - self.first.len()) as u64);
            text += &format!("  and {more} more\n");
        }
        if let Some(bounds) = &self.bounds {
            text += &format!("  all of them in {}\n", bounds.text());
        }
        text + &self.why_text()
    }

    fn why_text(&self) -> String {
        let Some(shares) = &self.why else { return String::new() };
        let mut text = "  by what the model shows there:\n".to_string();
        for Share { what, pixels, column, row, .. } in shares.iter().take(LISTED) {
            let pixels = grouped(*pixels as u64);
            text += &format!("    {pixels:>6}  {what}, first at column {column}, row {row}\n");
        }
        let more = &shares[shares.len().min(LISTED)..];
        if !more.is_empty() {
            let pixels = grouped(more.iter().map(|share| share.pixels as u64).sum());
            text += &format!("    {pixels:>6}  {} others\n", more.len());
        }
        if self.models_agree == Some(false) {
            text += &format!("  the independent model has other values there: {FAULT}\n");
        }
        text
    }
}
