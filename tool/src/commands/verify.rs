//! `vbmodel verify`: a report's inputs read again, and its lot judged again.

use std::collections::BTreeMap;
use std::path::{Path, PathBuf};

use clap::Args;
use rayon::prelude::*;
use serde::Serialize;
use vb::grouped;

use super::{merge, Report};
use crate::failure::Failure;
use crate::files::{printable, Reader};
use crate::interrupt;
use crate::judge::{judge_captures, judge_lot, model_of, Asked, Lot as CaptureLot, Model, Wish};
use crate::plan::Plan;
use crate::report::{self, FileRead, Header, Part};

#[derive(Args)]
#[command(after_help = "Example: is a report still what its files say?
  vbmodel judge --plan plan.toml lot --report report.json
  vbmodel verify report.json

The files are found by the names that the report has, so that the command runs in the folder where `judge` ran.
Besides verdicts it compares places, tests and the list of files. A report that contradicts itself is refused.
Exit status: 0 every file has its hash, and everything is the same; 1 something differs; 2 the report is refused, or the lot
could not be judged again; 130 stopped by a signal.")]
pub struct Options {
    /// The report that `judge --report` wrote
    #[arg(value_name = "REPORT")]
    report: PathBuf,
    /// Print JSON
    #[arg(long)]
    pub json: bool,
}

/// What every file of a report must be.
const WANTED: &str = "the file that the report names";

/// What is reported; its members are those of the JSON.
#[derive(Serialize)]
struct Reported {
    files: usize,
    changed: Vec<Changed>,
    parts: usize,
    verdicts: Vec<Other>,
    others: Vec<Other>,
    #[serde(skip_serializing_if = "Option::is_none")]
    model: Option<String>,
    #[serde(flatten)]
    failure: Option<Failure>,
}

/// A file that is not what it was.
#[derive(Serialize)]
struct Changed {
    path: String,
    what: String,
}

/// A part of which something differs, or the lot.
#[derive(Serialize)]
struct Other {
    part: String,
    was: String,
    is: String,
}

pub fn run(options: &Options) -> Result<Report, Failure> {
    let before = merge::read(&options.report)?;
    interrupt::watch();
    let files: Vec<&FileRead> = before.files().collect();
    let changed: Vec<Changed> = files.par_iter().filter_map(|file| changed(file)).collect();
    let again = judged_again(&before);
    let (after, failure) = match again {
        _ if interrupt::asked() => (None, Some(Failure::stopped())),
        Ok(after) => (Some(after), None),
        Err(failure) => (None, Some(failure)),
    };
    let differ = |what| after.as_ref().map_or_else(Vec::new, |after| others(&before, after, what));
    let (verdicts, mut others) = (differ(&verdict), differ(&all_but_verdict));
    others.retain(|one| verdicts.iter().all(|other| other.part != one.part));
    others.extend(after.as_ref().and_then(|after| lot_differs(&before.header, &after.header)));
    let reported = Reported {
        files: files.len(),
        changed,
        parts: before.parts.len(),
        verdicts,
        others,
        model: after.filter(|after| after.header.model != before.header.model).map(|after| {
            format!("{}; the report has {}", after.header.model.text(), before.header.model.text())
        }),
        failure: failure.clone(),
    };
    let status = match &reported {
        _ if interrupt::asked() => interrupt::STATUS,
        Reported { failure: Some(_), .. } => 2,
        Reported { changed, verdicts, others, .. } => {
            i32::from(!changed.is_empty() || !verdicts.is_empty() || !others.is_empty())
        }
    };
    Ok(Report { failure, ..Report::new(reported.text(), &reported, status) })
}

fn changed(file: &FileRead) -> Option<Changed> {
    let what = match Reader::each(Path::new(&file.path), WANTED, 1 << 18, &mut |_| Ok(())) {
        Ok(now) if now == *file => return None,
        Ok(now) => format!(
            "has {} bytes and SHA-256 {}; it had {} bytes and {}",
            grouped(now.bytes),
            now.sha256,
            grouped(file.bytes),
            file.sha256
        ),
        Err(failure) => {
            let (name, wanted) =
                (format!("{}: ", printable(&file.path)), format!("; it must be {WANTED}"));
            let what = failure.message.strip_prefix(&name).unwrap_or(&failure.message);
            what.strip_suffix(&wanted).unwrap_or(what).to_string()
        }
    };
    Some(Changed { path: file.path.clone(), what })
}

fn judged_again(before: &report::Report) -> Result<report::Report, Failure> {
    let header = &before.header;
    let Some(plan) = &header.plan_file else {
        let captures = header.captures.clone().unwrap_or_default();
        let lot = CaptureLot::read(Path::new(&header.lot), &captures.into())?;
        return Ok(judge_captures(&lot, header, Wish { first: 0, pictures: false }).0);
    };
    let plan = Plan::read(Path::new(plan))?;
    let (expected, files) = model_of(&plan)?;
    let model = Model { plan: &plan, expected: &expected, files: &files };
    let asked = Asked { allow_extra: header.allow_extra, shard: header.shard, pictures: None };
    judge_lot(model, Path::new(&header.lot), &asked)
}

/// What a report says of something, in the same order each time.
type Said = Vec<String>;

/// The parts of which something is not what it was. Two parts of a manifest may have one name.
fn others(
    before: &report::Report,
    after: &report::Report,
    what: &dyn Fn(&Part) -> Said,
) -> Vec<Other> {
    let by_name = |report: &report::Report| -> BTreeMap<String, Said> {
        let mut all: BTreeMap<String, Said> = BTreeMap::new();
        report
            .parts
            .iter()
            .for_each(|part| all.entry(part.title()).or_default().extend(what(part)));
        all
    };
    let (before, after) = (by_name(before), by_name(after));
    let mut names: Vec<&String> = before.keys().chain(after.keys()).collect();
    names.sort();
    names.dedup();
    let absent = vec!["not in the lot".to_string()];
    let said = |all: Option<&Said>| all.unwrap_or(&absent).clone();
    let other = |name: &String| other(name, said(before.get(name)), said(after.get(name)));
    names.into_iter().filter_map(other).collect()
}

/// Only what differs is said.
fn other(part: &str, before: Said, after: Said) -> Option<Other> {
    let differs = |one: &Said, two: &Said| {
        let kept = one.iter().enumerate().filter(|(n, said)| two.get(*n) != Some(*said));
        kept.map(|(_, said)| said.as_str()).collect::<Vec<_>>().join(", ")
    };
    let (was, is) = (differs(&before, &after), differs(&after, &before));
    (before != after).then(|| Other { part: part.to_string(), was, is })
}

fn verdict(part: &Part) -> Said {
    vec![format!("{}, bin {}", part.verdict.word(), part.bin)]
}

/// What a report says of a part besides: whether it decides, its place, its tests and its files.
fn all_but_verdict(part: &Part) -> Said {
    let coordinate = |one: Option<i16>| one.map_or("unknown".to_string(), |one| one.to_string());
    let mut all = vec![
        if part.decides { "decides" } else { "does not decide" }.to_string(),
        format!("wafer {}", part.wafer.as_deref().unwrap_or("unknown")),
        format!("x {}", coordinate(part.x)),
        format!("y {}", coordinate(part.y)),
        format!("columns {:?}", part.columns),
        paths(&part.files),
    ];
    all.extend(part.tests.iter().map(|test| format!("{} {}", test.test, test.verdict.word())));
    all
}

fn paths(files: &[FileRead]) -> String {
    let paths: Vec<&str> = files.iter().map(|file| file.path.as_str()).collect();
    format!("files {{{}}}", paths.join(", "))
}

/// What the header says of the lot.
fn lot_differs(before: &Header, after: &Header) -> Option<Other> {
    let said = |header: &Header| {
        let mut all = vec![
            format!("{} parts", header.parts),
            format!("pass_bin {}", header.pass_bin),
            format!("invalid_bin {}", header.invalid_bin),
            format!("unknown files {{{}}}", header.unknown.join(", ")),
            paths(&header.files),
        ];
        all.extend(header.tests.iter().map(|test| format!("{} bin {}", test.name, test.bin)));
        all
    };
    other("the lot", said(before), said(after))
}

impl Reported {
    fn text(&self) -> String {
        let mut lines = vec![match self.changed.len() {
            0 => format!("files:    {} read again, all as they were", grouped(self.files as u64)),
            count => format!(
                "files:    {} read again, {count} are not as they were",
                grouped(self.files as u64)
            ),
        }];
        lines.extend(
            self.changed.iter().map(|one| format!("  {}: {}", printable(&one.path), one.what)),
        );
        lines.extend(self.model.iter().map(|model| format!("model:    {model}")));
        if self.failure.is_none() {
            lines.push(match self.verdicts.len() {
                0 => {
                    format!("verdicts: the same for {} tests of parts", grouped(self.parts as u64))
                }
                count => format!("verdicts: {count} are not the same"),
            });
        }
        let line = |one: &Other| {
            let [part, was, is] = [&one.part, &one.was, &one.is].map(|text| printable(text));
            format!("  {part}: was {was}; is {is}")
        };
        lines.extend(self.verdicts.iter().map(line));
        if !self.others.is_empty() {
            let s = if self.others.len() == 1 { " is" } else { "s are" };
            lines.push(format!("report:   {} line{s} not the same", self.others.len()));
        }
        lines.extend(self.others.iter().map(line));
        lines.join("\n") + "\n"
    }
}
