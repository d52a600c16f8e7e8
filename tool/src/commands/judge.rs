//! `vbmodel judge`: a whole lot against the model, on all cores.

use std::path::{Path, PathBuf};
use std::time::Instant;

use clap::Args;
use serde::Serialize;

use super::Report;
use crate::eye::Eyes;
use crate::failure::Failure;
use crate::files::{printable, Outputs};
use crate::inputs::number;
use crate::interrupt;
use crate::judge::{judge_captures, judge_lot, model_of, Asked, Judged, Lot, Model, Summary, Wish};
use crate::plan::Plan;
use crate::report::{
    self, header_json, header_lines, shard, Captures, Forms, Header, Shard, Totals,
};
use crate::reports::json::json;

#[derive(Args)]
#[command(after_help = "Example: the demo's two frames as a lot, with a report to look at
  vbmodel demo
  mkdir lot
  cp out/vram.bin lot/all.vram
  cp out/drawing.bin lot/all.drawing
  cp out/frame1-left.png lot/good.left.png
  cp out/frame1-right.png lot/good.right.png
  cp out/frame0-left.png lot/worn.left.png
  cp out/frame1-right.png lot/worn.right.png
  vbmodel judge lot --html report.html

A folder's files say by their names what they are: NAME.vram and NAME.drawing, or NAME.state (a saved state), is the
scene of the part NAME; all.vram, all.drawing or all.state the scene of those that have none. NAME.left.png and
NAME.right.png, or .raw, and NAME.dump, a whole VRAM, are captures of frame 0; NAME.frame1.left.png and so on those of
frame 1.

A manifest in TOML has a table for each part, and may have defaults above them:
  drawing = \"all.drawing\"
  [[part]]
  name = \"die 7\"
  vram = \"7.vram\"
  frame = 1
  left = \"7-left.png\"
  right = \"7-right.png\"
The names are name, state, vram, drawing, frame, left, right, capture (a whole VRAM), threshold (1 to 42) and eyes (both,
left or right). A manifest in CSV has them as its first line, and a line for each part. Files are named from the
manifest's folder.

With --plan the parts are judged by the results of programs: the model runs each test of the plan once, draws its frames and
keeps its records, and every part's captures and traces are compared with those. The lot is a folder with a folder for each
part (die-17/pier.frame0.left.png, die-17/pier.trace) or with flat names (die-17.pier.frame0.left.png); die-17@2 is the
part's second test, and the last one decides; parts.csv (part, wafer, x, y, others) is a list of the parts. `vbmodel demo
--lot demo-lot` writes one to try:
  vbmodel judge --plan demo-lot/plan.toml demo-lot/parts --html report.html

A part passes when both eyes have a capture and both are equal. It fails when one differs. It is invalid when something
could not be judged: a capture is missing or broken, there are two of one eye or two scenes, a name differs only in case,
or a capture or folder is another part's too. An invalid part does not stop the others.

Exit status: 0 all pass; 1 some fail; 2 some are invalid, an unknown file is in the folder, or nothing could be judged;
3 the independent model and the proved library differ; 130 stopped by Ctrl-C.")]
pub struct Options {
    /// A folder, or a manifest whose name ends in .toml or .csv; with --plan a folder of parts
    lot: PathBuf,
    /// A test plan: each part must show the results of the plan's programs
    #[arg(long, value_name = "FILE", conflicts_with_all = ["vram", "drawing", "state", "threshold", "eyes"])]
    plan: Option<PathBuf>,
    /// With --plan: judge every N-th part, from the K-th on
    #[arg(long, value_name = "K/N", requires = "plan", value_parser = shard)]
    shard: Option<Shard>,
    /// VRAM of the parts that have none
    #[arg(long, value_name = "FILE")]
    vram: Option<PathBuf>,
    /// The drawing record of the parts that have none
    #[arg(long, value_name = "FILE")]
    drawing: Option<PathBuf>,
    /// A saved state for the parts that have no scene
    #[arg(long, value_name = "FILE", conflicts_with_all = ["vram", "drawing"])]
    state: Option<PathBuf>,
    /// How far a PNG's sample may lie from 00, 55, AA or FF, 1 to 42 [default: not at all]
    #[arg(long, value_name = "N", value_parser = number::threshold)]
    threshold: Option<u8>,
    /// The eyes that must have a capture, for parts that do not say; a further capture is judged too
    #[arg(long, value_enum, value_name = "EYES", default_value = "both")]
    eyes: Eyes,
    /// Allow files in the lot's folder that no naming rule takes
    #[arg(long)]
    allow_extra: bool,
    /// How many differing pixels to explain for each eye
    #[arg(long, value_name = "N", default_value = "3", value_parser = number::word)]
    first: u32,
    #[command(flatten)]
    forms: Forms,
    /// Print JSON, a line for each part and one for all
    #[arg(long)]
    pub json: bool,
}

/// The last line of the JSON.
#[derive(Serialize)]
struct Whole<'a> {
    summary: Summary,
    unknown: &'a [String],
    written: &'a [String],
    #[serde(flatten)]
    failure: Option<Failure>,
}

pub fn run(options: &Options) -> Result<Report, Failure> {
    match &options.plan {
        Some(plan) => by_plan(options, plan),
        None => by_captures(options),
    }
}

/// A lot whose parts are judged by a test plan.
fn by_plan(options: &Options, plan: &Path) -> Result<Report, Failure> {
    let begun = Instant::now();
    let plan = Plan::read(plan)?;
    options.forms.test()?;
    interrupt::watch();
    let (expected, files) = match model_of(&plan) {
        Err(failure) if interrupt::asked() => {
            let (text, json) = (String::new(), json(&failure));
            let status = interrupt::STATUS;
            return Ok(Report { text, json, status, failure: Some(failure), aside: false });
        }
        expected => expected?,
    };
    let model = Model { plan: &plan, expected: &expected, files: &files };
    let pictures = options.forms.has_pictures().then_some(options.first as usize);
    let asked = Asked { allow_extra: options.allow_extra, shard: options.shard, pictures };
    let report = judge_lot(model, &options.lot, &asked)?;
    options.forms.written(&report, begun.elapsed().as_secs_f64())
}

/// A lot whose parts have scenes and captures.
fn by_captures(options: &Options) -> Result<Report, Failure> {
    let begun = Instant::now();
    let captures = Captures {
        vram: options.vram.clone(),
        drawing: options.drawing.clone(),
        state: options.state.clone(),
        threshold: options.threshold,
        eyes: options.eyes,
    };
    let lot = Lot::read(&options.lot, &captures.clone().into())?;
    options.forms.test()?;
    interrupt::watch();
    let wish = Wish { first: options.first as usize, pictures: options.forms.has_pictures() };
    let header = Header::of_captures(&options.lot, captures, options.allow_extra);
    let (report, judged) = judge_captures(&lot, &header, wish);
    let totals = Totals::of(&report);
    let outputs = options.forms.outputs(&report, &totals, begun.elapsed().as_secs_f64())?;
    Ok(printed(&report, &judged, &outputs))
}

/// Every part on a line, the sum and the header in short; as JSON the header, the parts and the sum.
fn printed(report: &report::Report, judged: &[Judged], outputs: &Outputs) -> Report {
    let header = &report.header;
    let unknown = header.unknown.as_slice();
    let unknown_files = if header.allow_extra { 0 } else { unknown.len() };
    let summary = Summary::of(judged, header.parts, unknown_files);
    let failure = outputs.write().err();
    let written = if failure.is_none() { outputs.paths() } else { Vec::new() };
    let mut text: String = judged.iter().map(line).collect();
    if !unknown.is_empty() {
        let wish = match unknown_files {
            0 => "not judged",
            _ => "remove or rename, or give --allow-extra",
        };
        text += &format!("unknown files in the lot ({wish}): {}\n", unknown.join(", "));
    }
    text += &format!("{}\n", summary.text());
    text.extend(header_lines(report).iter().map(|line| format!("{line}\n")));
    text.extend(written.iter().map(|path| format!("written: {path}\n")));
    let mut lines = vec![header_json(report)];
    lines.extend(judged.iter().map(json));
    lines.push(json(&Whole { summary, unknown, written: &written, failure: failure.clone() }));
    let status = if failure.is_some() { 2 } else { summary.status() };
    Report { text, json: lines.join("\n"), status, failure, aside: false }
}

fn line(one: &Judged) -> String {
    format!("{:<7}  {}: {}\n", one.verdict.word(), printable(&one.name), printable(&one.line()))
}
