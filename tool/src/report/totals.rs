//! Sums over a report's parts: yield, bins, and what fails most.

use std::collections::BTreeMap;

use serde::Serialize;

use super::{Part, Report};
use crate::interrupt;
use crate::judge::Verdict;

/// Sums over the parts, each counted once, by its last test.
#[derive(Clone, Debug, Default, Serialize)]
pub struct Totals {
    pub parts: usize,
    pub pass: usize,
    pub fail: usize,
    pub invalid: usize,
    pub fault: usize,
    pub not_judged: usize,
    pub retested: usize,
    pub unknown_files: usize,
    /// Whether every part was judged.
    pub complete: bool,
    pub bins: Vec<Bin>,
    /// Parts that fail or are invalid in a test.
    pub tests: Vec<Count>,
    /// Parts in which something that the model shows differs.
    pub sources: Vec<Count>,
    /// Parts whose trace first differs at an instruction.
    pub instructions: Vec<Count>,
}

#[derive(Clone, Debug, Serialize)]
pub struct Bin {
    pub bin: u16,
    pub parts: usize,
    /// What leads to it.
    pub what: String,
}

#[derive(Clone, Debug, PartialEq, Eq, Serialize)]
pub struct Count {
    pub what: String,
    pub parts: usize,
}

impl Totals {
    pub fn of(report: &Report) -> Totals {
        let last: Vec<&Part> = report.parts.iter().filter(|part| part.decides).collect();
        let count = |verdict: Verdict| last.iter().filter(|part| part.verdict == verdict).count();
        let header = &report.header;
        Totals {
            parts: last.len() + report.not_judged,
            pass: count(Verdict::Pass),
            fail: count(Verdict::Fail),
            invalid: count(Verdict::Invalid),
            fault: count(Verdict::Fault),
            not_judged: report.not_judged,
            retested: report.parts.iter().filter(|part| !part.decides).count(),
            unknown_files: if header.allow_extra { 0 } else { header.unknown.len() },
            complete: report.not_judged == 0,
            bins: bins(report, &last),
            tests: counted(&last, |part| {
                let wrong = part.tests.iter().filter(|test| test.verdict != Verdict::Pass);
                wrong.map(|test| test.test.clone()).collect()
            }),
            sources: counted(&last, sources),
            instructions: counted(&last, instructions),
        }
    }

    /// Passed parts of those that were judged, in percent; none where none was.
    pub fn percent(&self) -> Option<f64> {
        let judged = self.parts - self.not_judged;
        (judged > 0).then(|| 100.0 * self.pass as f64 / judged as f64)
    }

    /// `24 parts: 18 pass, 3 fail, 3 invalid`
    pub fn text(&self) -> String {
        let summary = crate::judge::Summary {
            parts: self.parts,
            pass: self.pass,
            fail: self.fail,
            invalid: self.invalid,
            fault: self.fault,
            not_judged: self.not_judged,
            unknown_files: self.unknown_files,
        };
        summary.text()
    }

    pub fn status(&self) -> i32 {
        match self {
            _ if self.not_judged > 0 => interrupt::STATUS,
            _ if self.fault > 0 => 3,
            _ if self.invalid + self.unknown_files > 0 => 2,
            _ if self.fail > 0 => 1,
            _ => 0,
        }
    }
}

fn bins(report: &Report, last: &[&Part]) -> Vec<Bin> {
    let header = &report.header;
    let mut all: BTreeMap<u16, (usize, Vec<String>)> = BTreeMap::new();
    let mut name = |bin: u16, what: String| all.entry(bin).or_default().1.push(what);
    name(header.pass_bin, "pass".to_string());
    header.tests.iter().for_each(|test| name(test.bin, format!("{} fails first", test.name)));
    name(header.invalid_bin, "invalid".to_string());
    for part in last {
        all.entry(part.bin).or_default().0 += 1;
    }
    all.into_iter().map(|(bin, (parts, what))| Bin { bin, parts, what: what.join(", ") }).collect()
}

/// How many parts name each thing, most first.
fn counted(last: &[&Part], of: impl Fn(&Part) -> Vec<String>) -> Vec<Count> {
    let mut all: BTreeMap<String, usize> = BTreeMap::new();
    for part in last {
        let mut named = of(part);
        named.sort();
        named.dedup();
        named.into_iter().for_each(|what| *all.entry(what).or_default() += 1);
    }
    let mut all: Vec<Count> = all.into_iter().map(|(what, parts)| Count { what, parts }).collect();
    all.sort_by_key(|count| std::cmp::Reverse(count.parts));
    all
}

fn sources(part: &Part) -> Vec<String> {
    let eyes = part.tests.iter().flat_map(|test| test.eyes.iter().map(move |eye| (test, eye)));
    eyes.flat_map(|(test, eye)| {
        eye.shares.iter().map(move |share| format!("{}: {}", test.test, share.what))
    })
    .collect()
}

/// The mnemonics.
fn instructions(part: &Part) -> Vec<String> {
    let explained = part.tests.iter().filter_map(|test| {
        let explained = test.trace.as_ref()?.explained.as_ref()?;
        let name = explained.instruction.split_whitespace().next()?;
        Some(format!("{}: {name}", test.test))
    });
    explained.collect()
}
