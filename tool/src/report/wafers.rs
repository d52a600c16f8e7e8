//! Wafer maps: a die for each part that has a place, its shape by the verdict and its colour by the bin. All dies of a
//! verdict and bin are one path, so that a browser shows a map of 10,000 dies at once.

use std::collections::{BTreeMap, BTreeSet};
use std::fmt::Write;

use serde::Serialize;
use vb::grouped;

use super::{Part, Report};
use crate::files::printable;
use crate::judge::Verdict;

/// From one die to the next, the map's edge, and a die's side; page.js has the first two as well.
const PITCH: i32 = 24;
const EDGE: i32 = 4;
const SIDE: i32 = 20;
/// Colours that differ also for people who see few colours; the first is that of parts that pass.
const FILLS: [&str; 8] =
    ["#a6cee3", "#d95f02", "#e6ab02", "#7570b3", "#1b9e77", "#e7298a", "#66a61e", "#a6761d"];
const INVALID: &str = "#dddddd";
/// Dies whose bin is written on them; on a map with more of them only the colour has it.
const LABELLED: usize = 1_000;

#[derive(Serialize)]
pub struct Wafer {
    name: String,
    summary: String,
    width: i32,
    height: i32,
    shapes: Vec<Shape>,
    labels: Vec<Label>,
    /// Row, column and number of each part's row in the table, for the script.
    dies: String,
}

/// The dies of one verdict and bin.
#[derive(Serialize)]
struct Shape {
    verdict: &'static str,
    fill: &'static str,
    path: String,
}

/// The bin of a part that did not pass.
#[derive(Serialize)]
struct Label {
    bin: u16,
    x: i32,
    y: i32,
}

/// A part, its number and its place.
struct Die<'a> {
    number: usize,
    part: &'a Part,
    x: i32,
    y: i32,
}

/// The colour of each bin.
pub fn fills(report: &Report) -> BTreeMap<u16, &'static str> {
    let header = &report.header;
    let bins: BTreeSet<u16> = header.tests.iter().map(|test| test.bin).collect();
    let failed = bins.into_iter().zip(FILLS[1..].iter().cycle()).map(|(bin, fill)| (bin, *fill));
    let mut all: BTreeMap<u16, &str> = failed.collect();
    all.entry(header.invalid_bin).or_insert(INVALID);
    all.insert(header.pass_bin, FILLS[0]);
    all
}

/// The maps of the parts' last tests.
pub fn wafers(report: &Report) -> Vec<Wafer> {
    let fills = fills(report);
    let mut all: BTreeMap<&str, Vec<Die>> = BTreeMap::new();
    for (number, part) in report.parts.iter().enumerate().filter(|(_, part)| part.decides) {
        if let (Some(x), Some(y)) = (part.x, part.y) {
            let wafer = part.wafer.as_deref().unwrap_or_default();
            let (x, y) = (i32::from(x), i32::from(y));
            all.entry(wafer).or_default().push(Die { number, part, x, y });
        }
    }
    all.into_iter().map(|(name, dies)| wafer(name, dies, &fills)).collect()
}

/// The map of a wafer; its upper left die is at column 0, row 0.
fn wafer(name: &str, mut dies: Vec<Die>, fills: &BTreeMap<u16, &'static str>) -> Wafer {
    let left = dies.iter().map(|die| die.x).min().unwrap_or(0);
    let top = dies.iter().map(|die| die.y).min().unwrap_or(0);
    dies.iter_mut().for_each(|die| (die.x, die.y) = (die.x - left, die.y - top));
    let right = dies.iter().map(|die| die.x).max().unwrap_or(0);
    let bottom = dies.iter().map(|die| die.y).max().unwrap_or(0);
    let passed = dies.iter().filter(|die| die.part.verdict == Verdict::Pass).count();
    let labelled = dies.len() - passed <= LABELLED;
    let wrong = dies.iter().filter(|die| labelled && die.part.verdict != Verdict::Pass);
    let label = |die: &Die| {
        let at = |place: i32| EDGE + PITCH * place;
        Label { bin: die.part.bin, x: at(die.x) + SIDE / 2, y: at(die.y) + 13 }
    };
    let mut listed = String::new();
    for die in &dies {
        let _ = write!(listed, "{},{},{} ", die.y, die.x, die.number);
    }
    Wafer {
        name: if name.is_empty() {
            "wafer".to_string()
        } else {
            format!("wafer {}", printable(name))
        },
        summary: format!("{} of {} parts pass", grouped(passed as u64), grouped(dies.len() as u64)),
        width: 2 * EDGE + PITCH * right + SIDE,
        height: 2 * EDGE + PITCH * bottom + SIDE,
        shapes: shapes(&dies, fills),
        labels: wrong.map(label).collect(),
        dies: listed.trim_end().to_string(),
    }
}

fn shapes(dies: &[Die], fills: &BTreeMap<u16, &'static str>) -> Vec<Shape> {
    let mut all: BTreeMap<(&str, u16), String> = BTreeMap::new();
    for die in dies {
        // from the die's upper left corner
        let (x, y, shape) = match die.part.verdict {
            Verdict::Pass => (1, 1, "h18v18h-18z"),
            Verdict::Fail => (1, 1, "h18v18h-18zl18 18m0-18l-18 18"),
            Verdict::Invalid => (10, 0, "l10 10l-10 10l-10-10z"),
            Verdict::Fault => (10, 1, "l9 18h-18z"),
        };
        let path = all.entry((die.part.verdict.word(), die.part.bin)).or_default();
        let (x, y) = (EDGE + PITCH * die.x + x, EDGE + PITCH * die.y + y);
        let _ = write!(path, "M{x} {y}{shape}");
    }
    let shape = |((verdict, bin), path): ((&'static str, u16), String)| Shape {
        verdict,
        fill: fills.get(&bin).copied().unwrap_or(INVALID),
        path,
    };
    all.into_iter().map(shape).collect()
}
