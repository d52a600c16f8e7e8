//! The report as JSON, a value on each line, and as text for a terminal.

use std::path::Path;

use serde::{Deserialize, Serialize};
use serde_json::Value;

use super::{Header, Part, Report, Totals, TraceFound};
use crate::failure::Failure;
use crate::files::{printable, shown};
use crate::inputs::trace::WORDS;
use crate::judge::Verdict;
use crate::reports::json::json;

/// Parts that did not pass that a terminal is shown; every form that is written has all.
const SHOWN: usize = 100;

#[derive(Deserialize)]
struct HeaderLine {
    header: Header,
}

/// The last line.
#[derive(Deserialize)]
struct LastLine {
    totals: Value,
}

/// The header as JSON, on one line.
pub fn header_json(report: &Report) -> String {
    json(&One { header: Some(&report.header), totals: None })
}

#[derive(Serialize)]
struct One<'a, T> {
    #[serde(skip_serializing_if = "Option::is_none")]
    header: Option<&'a T>,
    #[serde(skip_serializing_if = "Option::is_none")]
    totals: Option<&'a T>,
}

/// The header, each part, and the totals. Pictures are left out where they are not wanted.
pub fn json_lines(report: &Report, totals: &Totals, pictures: bool) -> String {
    let mut text = header_json(report) + "\n";
    for part in &report.parts {
        text += &match pictures || part.details.is_empty() {
            true => json(part),
            false => json(&Part { details: Vec::new(), ..part.clone() }),
        };
        text.push('\n');
    }
    text + &json(&One { header: None, totals: Some(totals) }) + "\n"
}

/// A report that was written as JSON.
pub fn read_lines(path: &Path, text: &str) -> Result<Report, Failure> {
    let wrong = |line: usize, what: &str| {
        Failure::bad(format!(
            "{}: line {line}: {what}; it must be a report of `judge --report`",
            shown(path)
        ))
    };
    let lines: Vec<&str> = text.lines().collect();
    let (Some((first, rest)), true) = (lines.split_first(), lines.len() >= 2) else {
        return Err(wrong(1, "the report is not whole"));
    };
    let header: HeaderLine =
        serde_json::from_str(first).map_err(|error| wrong(1, &printable(&error.to_string())))?;
    let (last, parts) = rest.split_last().unwrap_or((&"", &[]));
    let not_whole = || wrong(lines.len(), "the report is not whole");
    let LastLine { totals } = serde_json::from_str(last).map_err(|_| not_whole())?;
    let not_judged = totals.get("not_judged").and_then(Value::as_u64).ok_or_else(not_whole)?;
    let not_judged = not_judged as usize;
    let mut report = Report { header: header.header, parts: Vec::new(), not_judged };
    for (number, line) in parts.iter().enumerate() {
        let part = serde_json::from_str(line);
        report.parts.push(part.map_err(|error| wrong(number + 2, &printable(&error.to_string())))?);
    }
    if let Some(what) = report.contradiction() {
        return Err(Failure::bad(format!("{}: {what}; the report was changed", shown(path))));
    }
    if serde_json::to_value(Totals::of(&report)).ok() != Some(totals) {
        let what = "the totals are not those of its parts";
        return Err(Failure::bad(format!("{}: {what}; the report was changed", shown(path))));
    }
    Ok(report)
}

/// The parts that did not pass, the bins and the sum, and the header in short.
pub fn text(report: &Report, totals: &Totals) -> String {
    let mut lines: Vec<String> = Vec::new();
    let wrong = |verdict: Verdict| report.parts.iter().filter(move |part| part.verdict == verdict);
    let all = [Verdict::Fault, Verdict::Fail, Verdict::Invalid].into_iter().flat_map(wrong);
    let all: Vec<&Part> = all.collect();
    lines.extend(all.iter().take(SHOWN).map(|part| line(part)));
    if all.len() > SHOWN {
        lines.push(format!("and {} more", vb::grouped((all.len() - SHOWN) as u64)));
    }
    if !report.header.unknown.is_empty() {
        let wish = match totals.unknown_files {
            0 => "not judged",
            _ => "remove or rename, or give --allow-extra",
        };
        let names: Vec<&str> =
            report.header.unknown.iter().take(SHOWN).map(String::as_str).collect();
        let more = if report.header.unknown.len() > SHOWN { ", .." } else { "" };
        lines.push(format!("unknown files in the lot ({wish}): {}{more}", names.join(", ")));
    }
    let bins = totals.bins.iter().filter(|bin| bin.parts > 0);
    let bins: Vec<String> = bins.map(|bin| format!("bin {}: {}", bin.bin, bin.parts)).collect();
    lines.push(bins.join(", "));
    let shown = totals.percent().map_or(String::new(), |percent| format!("; yield {percent:.1} %"));
    lines.push(totals.text() + &shown);
    lines.extend(header_lines(report));
    lines.into_iter().filter(|line| !line.is_empty()).map(|line| line + "\n").collect()
}

/// The header in short: what was judged and when, by which model, from which files.
pub fn header_lines(report: &Report) -> Vec<String> {
    let Header { lot, model, date, .. } = &report.header;
    let judged = match report.header.plan_text() {
        Some(plan) => format!("plan   {plan}, {date}"),
        None => format!("lot    {}, {date}", printable(lot)),
    };
    vec![judged, format!("model  {}", model.text()), format!("read   {}", read(report))]
}

/// How much was read, and one hash over the list of all hashes.
pub fn read(report: &Report) -> String {
    let files: Vec<_> = report.files().collect();
    let bytes: u64 = files.iter().map(|file| file.bytes).sum();
    let list: String =
        files.iter().map(|file| format!("{}  {}\n", file.sha256, file.path)).collect();
    let (count, bytes) = (vb::grouped(files.len() as u64), vb::grouped(bytes));
    format!(
        "{count} files, {bytes} bytes; SHA-256 of their list {}",
        super::Hash::of(list.as_bytes())
    )
}

fn line(part: &Part) -> String {
    let note = if part.decides { "" } else { " (tested again)" };
    format!(
        "{:<7}  {}{note}: {}",
        part.verdict.word(),
        printable(&part.title()),
        printable(&part.line())
    )
}

impl TraceFound {
    /// What differs, and what the model did there.
    pub fn line(&self) -> String {
        let record = vb::grouped(self.record);
        let Some(expected) = self.expected else {
            let (asked, there) = (vb::grouped(self.asked), vb::grouped(self.records));
            return format!(
                "trace: the model's program ends after {asked} records; the trace has {there}"
            );
        };
        let (word, seen) = (WORDS[self.word], self.seen[self.word]);
        let mut text = format!(
            "trace: record {record} differs in {word}, expected 0x{:08X}, seen 0x{seen:08X}",
            expected[self.word]
        );
        if let Some(explained) = &self.explained {
            text += &format!(", at 0x{:08X} {}", expected[0], explained.instruction);
        }
        if self.later > 0 {
            text += &format!("; {} later records differ", vb::grouped(self.later));
        }
        text
    }
}
