//! A whole lot judged by a plan, on all cores.

use std::path::Path;
use std::sync::atomic::{AtomicUsize, Ordering};
use std::sync::Mutex;
use std::time::Instant;

use rayon::prelude::*;

use super::attempt::{judge_attempt, Model};
use super::explained::{explain_memories, explain_traces, picture, PICTURED};
use super::Verdict;
use crate::failure::Failure;
use crate::interrupt;
use crate::lot::{Lot, Part};
use crate::plan::{expected, Expected, Plan};
use crate::report::{self, names_hash, FileRead, Header, Report, Shard};
use crate::reports::progress::Progress;

/// What is wanted in addition to the verdicts.
pub struct Asked {
    pub allow_extra: bool,
    pub shard: Option<Shard>,
    /// How many differing pixels are explained; none where no picture is wanted.
    pub pictures: Option<usize>,
}

/// Runs every test of a plan once. Gives the result of each, and the files that they were run from.
pub fn model_of(plan: &Plan) -> Result<(Vec<Expected>, Vec<FileRead>), Failure> {
    let expected: Vec<Expected> = plan.tests.par_iter().map(expected).collect::<Result<_, _>>()?;
    let mut files = vec![plan.read.clone()];
    for file in expected.iter().flat_map(|one| &one.files) {
        file.clone().noted(&mut files)?;
    }
    Ok((expected, files))
}

pub fn judge_lot(model: Model, folder: &Path, asked: &Asked) -> Result<Report, Failure> {
    let lot = Lot::read(folder, model.plan, asked.allow_extra)?;
    let mut header = Header::of(model.plan, model.expected, &folder.to_string_lossy());
    header.files = model.files.to_vec();
    header.files.extend(lot.list.clone());
    (header.allow_extra, header.shard) = (asked.allow_extra, asked.shard);
    (header.parts, header.unknown) = (lot.parts.len(), lot.unknown.clone());
    header.names = Some(names_hash(lot.parts.iter().map(|part| part.name.as_str())));
    let mine = lot.parts.iter().enumerate();
    let mine = mine.filter(|(n, _)| asked.shard.is_none_or(|shard| shard.has(*n)));
    let mine: Vec<&Part> = mine.map(|(_, part)| part).collect();
    let judged = all(model, &mine);
    let not_judged = mine.len() - judged.len();
    let mut report = Report { header, parts: judged.into_iter().flatten().collect(), not_judged };
    explain_traces(model, &mut report.parts)?;
    explain_memories(model, &mut report.parts)?;
    if let Some(pixels) = asked.pictures {
        pictures(model, &lot, &mut report, pixels);
    }
    Ok(report)
}

/// Every part's tests, in the lot's order; fewer parts where Ctrl-C came.
fn all(model: Model, parts: &[&Part]) -> Vec<Vec<report::Part>> {
    let begun = Instant::now();
    let progress = Mutex::new(Progress::new());
    let done = AtomicUsize::new(0);
    let judged = parts.par_iter().map(|part| {
        if interrupt::asked() {
            return None;
        }
        let last = part.attempts.len() - 1;
        let attempts = part.attempts.iter().enumerate();
        let judged = attempts.map(|(n, attempt)| judge_attempt(model, part, attempt, n == last));
        let judged: Vec<report::Part> = judged.collect();
        let done = done.fetch_add(1, Ordering::Relaxed) + 1;
        if let Ok(mut progress) = progress.try_lock() {
            progress.show(|| how_far(done, parts.len(), begun.elapsed().as_secs_f64()));
        }
        Some(judged)
    });
    let judged: Vec<Option<Vec<report::Part>>> = judged.collect();
    if let Ok(mut progress) = progress.lock() {
        progress.clear();
    }
    judged.into_iter().flatten().collect()
}

/// `120 of 1,000 parts, 4 s left`
fn how_far(done: usize, all: usize, seconds: f64) -> String {
    let left = seconds / done as f64 * (all - done) as f64;
    let left = match left.ceil() as u64 {
        seconds @ 0..=119 => format!("{seconds} s"),
        seconds => format!("{} min", seconds.div_ceil(60)),
    };
    let [done, all] = [done, all].map(|count| vb::grouped(count as u64));
    format!("{done} of {all} parts, {left} left")
}

/// The pictures of the first parts of each verdict that differ in one.
fn pictures(model: Model, lot: &Lot, report: &mut Report, pixels: usize) {
    let mut left = [Verdict::Fault, Verdict::Fail, Verdict::Invalid].map(|one| (one, PICTURED));
    let first = report.parts.iter_mut().filter(|part| {
        let differs = part.tests.iter().any(|test| !test.eyes.is_empty());
        let left = left.iter_mut().find(|(verdict, _)| differs && *verdict == part.verdict);
        left.is_some_and(|(_, left)| std::mem::replace(left, left.saturating_sub(1)) > 0)
    });
    let first: Vec<&mut report::Part> = first.collect();
    first.into_par_iter().for_each(|part| {
        if let Err(failure) = picture(model, lot, part, pixels) {
            // its captures are read again here, and are not what they were
            (part.verdict, part.bin) = (Verdict::Invalid, model.plan.invalid_bin);
            part.details.clear();
            part.problems.push(failure.message);
        }
    });
}

#[cfg(test)]
mod tests {
    use super::how_far;

    #[test]
    fn the_time_that_is_left_follows_from_the_time_so_far() {
        assert_eq!(how_far(250, 1_000, 2.0), "250 of 1,000 parts, 6 s left");
        assert_eq!(how_far(1, 1_000, 1.0), "1 of 1,000 parts, 17 min left");
    }
}
