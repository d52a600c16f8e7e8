//! A whole lot of captures judged, on all cores, without a plan: every part has its own scene or the lot's.

use std::path::Path;
use std::sync::atomic::{AtomicUsize, Ordering};
use std::sync::Mutex;

use rayon::prelude::*;

use super::explained::PICTURED;
use super::verdict::{judge, Explained, EyeJudged, Judged, Wish};
use super::{Lot, Part, Verdict};
use crate::interrupt;
use crate::report::{
    self, names_hash, Captures, Detail, EyeFound, Header, Pixel, Report, TestHeader, Tested, Zoom,
};
use crate::reports::progress::Progress;

/// The one test of such a lot, and the bin of a part that fails it.
const TEST: &str = "captures";
const BIN: u16 = 2;
/// Sources of differing pixels that a report keeps for an eye.
const KEPT: usize = 10;

/// Judges the lot. The header says which, and gets its parts and the scenes' files.
pub fn judge_captures(lot: &Lot, header: &Header, wish: Wish) -> (Report, Vec<Judged>) {
    let mut judged = all(lot, Wish { pictures: false, ..wish });
    if wish.pictures {
        pictures(lot, &mut judged, wish);
    }
    let mut header = header.clone();
    let test =
        TestHeader { name: TEST.to_string(), bin: BIN, frames: 1, records: None, instructions: 0 };
    (header.tests, header.parts) = (vec![test], lot.entries.len());
    header.names = Some(names_hash(lot.entries.iter().map(|entry| entry.name.as_str())));
    header.unknown.clone_from(&lot.unknown);
    header.files.clone_from(&lot.files);
    for file in judged.iter().flat_map(|one| &one.scene) {
        if !header.files.contains(file) {
            header.files.push(file.clone());
        }
    }
    let not_judged = lot.entries.len() - judged.len();
    let parts = judged.iter().map(|one| one.reported(&header)).collect();
    (Report { header, parts, not_judged }, judged)
}

impl Header {
    /// The header of a lot of captures.
    pub fn of_captures(lot: &Path, captures: Captures, allow_extra: bool) -> Header {
        let captures = Some(captures);
        Header { captures, allow_extra, ..Header::bare(&lot.to_string_lossy()) }
    }
}

impl From<Captures> for Part {
    fn from(captures: Captures) -> Part {
        let Captures { state, vram, drawing, threshold, eyes } = captures;
        Part { state, vram, drawing, threshold, eyes: Some(eyes), ..Part::default() }
    }
}

/// Every part, in the lot's order; fewer where Ctrl-C came.
fn all(lot: &Lot, wish: Wish) -> Vec<Judged> {
    let progress = Mutex::new(Progress::new());
    let done = AtomicUsize::new(0);
    let judged = lot.entries.par_iter().map(|entry| {
        if interrupt::asked() {
            return None;
        }
        let judged = judge(entry, wish);
        let done = done.fetch_add(1, Ordering::Relaxed) + 1;
        if let Ok(mut progress) = progress.try_lock() {
            progress.show(|| format!("{done} of {} parts", lot.entries.len()));
        }
        Some(judged)
    });
    let judged: Vec<Option<Judged>> = judged.collect();
    if let Ok(mut progress) = progress.lock() {
        progress.clear();
    }
    judged.into_iter().flatten().collect()
}

/// Judges the first parts of each verdict that differ once more, for their pictures.
fn pictures(lot: &Lot, judged: &mut [Judged], wish: Wish) {
    let mut left = [Verdict::Fault, Verdict::Fail, Verdict::Invalid].map(|one| (one, PICTURED));
    let first = judged.iter_mut().filter(|one| {
        let differs = one.eyes.iter().any(|eye| !eye.equal);
        let left = left.iter_mut().find(|(verdict, _)| differs && *verdict == one.verdict);
        left.is_some_and(|(_, left)| std::mem::replace(left, left.saturating_sub(1)) > 0)
    });
    let first: Vec<&mut Judged> = first.collect();
    first.into_par_iter().for_each(|one| {
        let entry = lot.entries.iter().find(|entry| entry.name == one.name);
        if let Some(again) = entry.map(|entry| judge(entry, wish)) {
            *one = again;
        }
    });
}

impl Judged {
    /// The part as every report has it.
    fn reported(&self, header: &Header) -> report::Part {
        let bin = match self.verdict {
            Verdict::Pass => header.pass_bin,
            Verdict::Fail => BIN,
            Verdict::Invalid | Verdict::Fault => header.invalid_bin,
        };
        let scene: Vec<String> = self.scene.iter().map(|file| file.path.clone()).collect();
        let columns = [("frame", self.frame.to_string()), ("scene", scene.join(", "))];
        let columns = columns.into_iter().filter(|_| !scene.is_empty());
        let differing = || self.eyes.iter().filter(|eye| !eye.equal);
        let problems = self.failure.iter().map(|failure| failure.message.clone()).collect();
        let eyes = differing().filter_map(|eye| eye.found(self.frame as usize)).collect();
        let test = TEST.to_string();
        let tested = Tested {
            test,
            verdict: self.verdict,
            problems,
            eyes,
            trace: None,
            memories: Vec::new(),
        };
        report::Part {
            part: self.name.clone(),
            attempt: 1,
            decides: true,
            verdict: self.verdict,
            bin,
            wafer: None,
            x: None,
            y: None,
            columns: columns.map(|(name, value)| (name.to_string(), value)).collect(),
            problems: Vec::new(),
            tests: vec![tested],
            files: self.captures.clone(),
            details: differing().filter_map(|eye| eye.detail(self.frame as usize)).collect(),
        }
    }
}

impl EyeJudged {
    /// What differs, as every report has it; only an eye that differs has a first pixel.
    fn found(&self, frame: usize) -> Option<EyeFound> {
        Some(EyeFound {
            frame,
            eye: self.eye,
            capture: self.capture.clone(),
            different: self.different,
            bounds: self.bounds?,
            first: self.start?,
            shares: self.shares.iter().take(KEPT).cloned().collect(),
            more_shares: self.shares.len().saturating_sub(KEPT),
            levels: self.levels.clone(),
        })
    }

    /// Its pictures, where they were made.
    fn detail(&self, frame: usize) -> Option<Detail> {
        let shown = self.shown.clone()?;
        let pixel = |one: &Explained| Pixel {
            pixel: one.pixel,
            because: one.because.clone(),
            text: one.text.clone(),
        };
        Some(Detail {
            test: TEST.to_string(),
            frame,
            eye: self.eye,
            model: shown.model,
            changes: shown.changes,
            marks: shown.marks,
            zoom: Zoom::around(&self.start?),
            pixels: self.first.iter().map(pixel).collect(),
        })
    }
}
