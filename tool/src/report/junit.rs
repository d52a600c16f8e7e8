//! The report for a test server: a failed part is a failure, an invalid one an error.

use super::xml::{Case, Suite, Wrong};
use super::{Part, Pixel, Report, Totals};
use crate::failure::Failure;
use crate::judge::Verdict;

pub fn junit(report: &Report, totals: &Totals, seconds: f64) -> Result<Vec<u8>, Failure> {
    let extra = usize::from(totals.unknown_files > 0);
    let mut cases: Vec<Case> = report.parts.iter().filter(|part| part.decides).map(case).collect();
    if extra > 0 {
        cases.push(Case::unknown_files(&report.header.unknown));
    }
    let suite = Suite {
        name: report.header.plan.clone().unwrap_or_else(|| "vbmodel judge".to_string()),
        tests: totals.parts + extra,
        failures: totals.fail,
        errors: totals.invalid + totals.fault + extra,
        skipped: totals.not_judged,
        seconds,
        timestamp: Some(report.header.date.trim_end_matches('Z').to_string()),
        properties: properties(report),
        cases,
    };
    suite.xml()
}

/// The header, and every file that was read.
fn properties(report: &Report) -> Vec<(String, String)> {
    let header = &report.header;
    let facts = [
        ("plan", header.plan.clone()),
        ("plan file", header.plan_file.clone()),
        ("lot", Some(header.lot.clone())),
        ("model", Some(header.model.text())),
        ("command", Some(header.command.clone())),
        ("date", Some(header.date.clone())),
    ];
    let facts = facts.into_iter().filter_map(|(name, value)| Some((name.to_string(), value?)));
    let files = report.files().map(|file| {
        (format!("file {}", file.path), format!("SHA-256 {}, {} bytes", file.sha256, file.bytes))
    });
    facts.chain(files).collect()
}

fn case(part: &Part) -> Case {
    let tests = part.tests.iter().map(|test| format!("{}: {}", test.test, test.verdict.word()));
    let pixels = part.details.iter().flat_map(|detail| &detail.pixels);
    let text = tests.chain(pixels.map(Pixel::line)).collect::<Vec<String>>().join("\n");
    let wrong = |kind| Some(Wrong { kind, message: part.line(), text });
    let wrong = match part.verdict {
        Verdict::Pass => None,
        Verdict::Fail => wrong("failure"),
        Verdict::Invalid | Verdict::Fault => wrong("error"),
    };
    Case { name: part.title(), wrong }
}

impl Case {
    /// Files of the lot that no rule takes.
    pub fn unknown_files(names: &[String]) -> Case {
        let wrong = Wrong { kind: "error", message: names.join(", "), text: String::new() };
        Case { name: "unknown files".to_string(), wrong: Some(wrong) }
    }
}
