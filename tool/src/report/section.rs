//! What the page shows of one part that did not pass.

use std::collections::BTreeMap;

use serde::Serialize;
use vb::grouped;

use super::{Detail, EyeFound, Part, Tested, TraceFound};
use crate::files::printable;
use crate::inputs::trace::Record;
use crate::pictures::difference::{Bounds, Difference};
use crate::pictures::sources::Share;

/// What several parts share and the page has once: the model's pictures, and why it has a pixel.
#[derive(Default)]
pub struct Shared {
    pictures: BTreeMap<String, String>,
    reasons: BTreeMap<String, Reason>,
    /// How many captures have pictures.
    captures: usize,
}

/// A picture of the model's.
#[derive(Serialize)]
pub struct Model {
    id: String,
    png: String,
}

/// Why the model has a pixel.
#[derive(Clone, Serialize)]
pub struct Reason {
    id: String,
    #[serde(skip)]
    number: usize,
    title: String,
    text: String,
}

impl Shared {
    fn picture(&mut self, png: &str) -> String {
        let next = format!("model-{}", self.pictures.len());
        self.pictures.entry(png.to_string()).or_insert(next).clone()
    }

    fn reason(&mut self, title: String, text: &str) -> String {
        let number = self.reasons.len();
        let id = format!("why-{number}");
        let next = || Reason { id, number, title, text: text.to_string() };
        self.reasons.entry(text.to_string()).or_insert_with(next).id.clone()
    }

    /// The pictures, and the reasons in the order in which they were met.
    pub fn all(self) -> (Vec<Model>, Vec<Reason>) {
        let pictures = self.pictures.into_iter().map(|(png, id)| Model { id, png }).collect();
        let mut reasons: Vec<Reason> = self.reasons.into_values().collect();
        reasons.sort_by_key(|reason| reason.number);
        (pictures, reasons)
    }
}

#[derive(Serialize)]
pub struct Section {
    number: usize,
    name: String,
    verdict: &'static str,
    bin: u16,
    about: String,
    problems: Vec<String>,
    tests: Vec<TestView>,
}

#[derive(Serialize)]
struct TestView {
    name: String,
    verdict: &'static str,
    problems: Vec<String>,
    eyes: Vec<EyeView>,
    traces: Vec<TraceView>,
    /// A line for each that differs.
    memories: Vec<String>,
}

#[derive(Serialize)]
struct EyeView {
    name: String,
    line: String,
    /// Its pictures, one or none.
    shown: Vec<Shown>,
    shares: Vec<Share>,
    pixels: Vec<PixelView>,
}

#[derive(Serialize)]
struct Shown {
    /// The ids of the model's picture and of the capture's changes to it.
    model: String,
    changes_id: String,
    changes: String,
    marks: String,
    /// The frame around what differs lies outside it.
    box_x: f64,
    box_y: f64,
    box_width: f64,
    box_height: f64,
    /// The enlarged piece, and the frame around the first pixel.
    left: usize,
    top: usize,
    mark_x: f64,
    mark_y: f64,
    column: usize,
    row: usize,
}

#[derive(Serialize)]
struct PixelView {
    #[serde(flatten)]
    pixel: Difference,
    because: String,
    /// The id of the whole reason.
    why: String,
}

#[derive(Serialize)]
struct TraceView {
    line: String,
    expected: Vec<String>,
    seen: Vec<String>,
    flags_expected: String,
    flags_seen: String,
    did: String,
    operands: String,
    hints: Vec<String>,
    before: String,
}

pub fn section(number: usize, part: &Part, shared: &mut Shared) -> Section {
    let wrong = part.tests.iter().filter(|test| test.verdict != crate::judge::Verdict::Pass);
    let columns = part
        .columns
        .iter()
        .map(|(name, value)| format!("{} {}", printable(name), printable(value)));
    let mut about: Vec<String> =
        part.wafer.iter().map(|wafer| format!("wafer {}", printable(wafer))).collect();
    about.extend(part.x.zip(part.y).map(|(x, y)| format!("x {x}, y {y}")));
    about.extend(columns);
    about.push(match part.decides {
        true if part.attempt == 1 => String::new(),
        true => format!("test {} of the part, which decides", part.attempt),
        false => format!("test {} of the part, which was tested again", part.attempt),
    });
    about.retain(|one| !one.is_empty());
    Section {
        number,
        name: printable(&part.title()),
        verdict: part.verdict.word(),
        bin: part.bin,
        about: about.join("; "),
        problems: part.problems.iter().map(|one| printable(one)).collect(),
        tests: wrong.map(|test| test_view(part, test, shared)).collect(),
    }
}

fn test_view(part: &Part, test: &Tested, shared: &mut Shared) -> TestView {
    let eye = |found: &EyeFound| {
        let is = |one: &&Detail| {
            one.test == test.test && one.frame == found.frame && one.eye == found.eye
        };
        eye_view(test, found, part.details.iter().find(is), shared)
    };
    TestView {
        name: test.test.clone(),
        verdict: test.verdict.word(),
        problems: test.problems.iter().map(|one| printable(one)).collect(),
        eyes: test.eyes.iter().map(eye).collect(),
        traces: test.trace.iter().map(|trace| trace_view(trace)).collect(),
        memories: test
            .memories
            .iter()
            .map(|one| format!("{}; {}", one.line(), printable(&one.file)))
            .collect(),
    }
}

fn eye_view(
    test: &Tested,
    found: &EyeFound,
    detail: Option<&Detail>,
    shared: &mut Shared,
) -> EyeView {
    let name = format!("frame {}, {} eye", found.frame, found.eye);
    let pixel = |one: &super::Pixel, shared: &mut Shared| {
        let Difference { x, y, .. } = one.pixel;
        let title = format!("{}, {name}, column {x}, row {y}: {}", test.test, one.because);
        let why = shared.reason(title, &one.text);
        PixelView { pixel: one.pixel, because: one.because.clone(), why }
    };
    let pixels = detail.iter().flat_map(|detail| &detail.pixels);
    EyeView {
        line: format!("{}; capture {}", found.line(), printable(&found.capture)),
        pixels: pixels.map(|one| pixel(one, shared)).collect(),
        shown: detail.map(|detail| shown(found, detail, shared)).into_iter().collect(),
        shares: found.shares.clone(),
        name,
    }
}

fn shown(found: &EyeFound, detail: &Detail, shared: &mut Shared) -> Shown {
    let Bounds { left, top, right, bottom } = found.bounds;
    shared.captures += 1;
    Shown {
        model: shared.picture(&detail.model),
        changes_id: format!("capture-{}", shared.captures),
        changes: detail.changes.clone(),
        marks: detail.marks.clone(),
        box_x: left as f64 - 1.5,
        box_y: top as f64 - 1.5,
        box_width: (right - left) as f64 + 4.0,
        box_height: (bottom - top) as f64 + 4.0,
        left: detail.zoom.left,
        top: detail.zoom.top,
        mark_x: found.first.x as f64 - 0.5,
        mark_y: found.first.y as f64 - 0.5,
        column: found.first.x,
        row: found.first.y,
    }
}

fn trace_view(found: &TraceFound) -> TraceView {
    let words = |record: &Record| record.iter().map(|word| format!("0x{word:08X}")).collect();
    let none = || vec!["none".to_string(); 4];
    let explained = found.explained.clone().unwrap_or_default();
    let operand = |(name, value): &(String, u32)| format!("{name} is 0x{value:08X}");
    let operands: Vec<String> = explained.operands.iter().map(operand).collect();
    let records = grouped(found.records);
    TraceView {
        line: format!("{}; {records} records in {}", found.line(), printable(&found.file)),
        expected: found.expected.as_ref().map_or_else(none, words),
        seen: words(&found.seen),
        flags_expected: explained.flags_expected,
        flags_seen: explained.flags_seen,
        did: explained.did,
        operands: operands.join(", "),
        hints: explained.hints,
        before: explained.before.join("\n"),
    }
}
