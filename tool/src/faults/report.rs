//! What a plan detects, as a report: JSON lines, text, CSV.

use std::path::Path;

use serde::{Deserialize, Serialize};
use vb::grouped;

use super::coverage::{Row, Verdict};
use super::{names, LIST_VERSION};
use crate::behaviour::{self, Counted};
use crate::failure::Failure;
use crate::files::{printable, shown};
use crate::report::{Identity, Shard};
use crate::reports::json::json;

/// What was covered, by which model, and when.
#[derive(Clone, Debug, Deserialize, PartialEq, Serialize)]
pub struct Header {
    /// The version of the list of faults, and its SHA-256.
    pub list: u32,
    pub list_sha256: String,
    pub plan: String,
    /// The SHA-256 of the list of its files' SHA-256s.
    pub plan_sha256: String,
    /// The patterns that chose the faults; all of the list without one.
    pub chosen: Vec<String>,
    /// How many faults were chosen, in all shards.
    pub faults: usize,
    #[serde(default, skip_serializing_if = "Option::is_none")]
    pub shard: Option<Shard>,
    /// The least percentage that the plan asks for.
    #[serde(default, skip_serializing_if = "Option::is_none")]
    pub coverage_at_least: Option<f64>,
    /// Instructions of all tests.
    pub instructions: u64,
    /// The tables of behaviour, where they were asked for.
    #[serde(default, skip_serializing_if = "Vec::is_empty")]
    pub behaviour: Vec<Counted>,
    pub model: Identity,
    pub command: String,
    pub date: String,
}

#[derive(Clone, Debug, PartialEq)]
pub struct Coverage {
    pub header: Header,
    pub rows: Vec<Row>,
}

/// How many faults of a class have each verdict.
#[derive(Clone, Debug, Default, Deserialize, PartialEq, Serialize)]
pub struct Count {
    pub class: String,
    pub faults: usize,
    pub equivalent: usize,
    pub detected: usize,
    pub never_exercised: usize,
    pub masked: usize,
}

impl Count {
    fn add(&mut self, verdict: Verdict) {
        self.faults += 1;
        *match verdict {
            Verdict::Detected => &mut self.detected,
            Verdict::Masked => &mut self.masked,
            Verdict::NotExercised => &mut self.never_exercised,
            Verdict::Equivalent => &mut self.equivalent,
        } += 1;
    }

    /// The percentage of those that a program can show; none where there are none.
    pub fn percent(&self) -> Option<f64> {
        let counted = self.faults - self.equivalent;
        (counted > 0).then(|| 100.0 * self.detected as f64 / counted as f64)
    }
}

/// The last line.
#[derive(Deserialize, Serialize)]
struct Totals {
    complete: bool,
    totals: Count,
}

#[derive(Deserialize, Serialize)]
struct HeaderLine {
    coverage: Header,
}

impl Coverage {
    /// How many faults this report must have.
    pub fn due(&self) -> usize {
        let faults = self.header.faults;
        self.header.shard.map_or(faults, |shard| (0..faults).filter(|n| shard.has(*n)).count())
    }

    pub fn is_complete(&self) -> bool {
        self.rows.len() == self.due()
    }

    /// Each class in the list's order, and all.
    pub fn counts(&self) -> (Vec<Count>, Count) {
        let mut classes: Vec<Count> = Vec::new();
        let mut all = Count { class: "all".to_string(), ..Count::default() };
        for row in &self.rows {
            all.add(row.verdict);
            match classes.iter_mut().find(|count| count.class == row.class) {
                Some(count) => count.add(row.verdict),
                None => {
                    let mut count = Count { class: row.class.clone(), ..Count::default() };
                    count.add(row.verdict);
                    classes.push(count);
                }
            }
        }
        (classes, all)
    }

    /// The names that are missed for a reason, with their numbers as ranges.
    pub fn missed(&self, why: Verdict) -> Vec<String> {
        let rows = self.rows.iter().filter(|row| row.verdict == why);
        names::collapsed(rows.map(|row| row.fault.as_str()))
    }

    /// 0, or 1 where less is detected than the plan asks for; 130 where it is not complete.
    pub fn status(&self) -> i32 {
        let (_, all) = self.counts();
        match (self.is_complete(), self.header.coverage_at_least, all.percent()) {
            (false, ..) => crate::interrupt::STATUS,
            (_, Some(least), Some(percent)) if percent < least => 1,
            _ => 0,
        }
    }

    pub fn json_lines(&self) -> String {
        let (_, totals) = self.counts();
        let head = json(&HeaderLine { coverage: self.header.clone() });
        let last = json(&Totals { complete: self.is_complete(), totals });
        let rows = self.rows.iter().map(json);
        let lines = std::iter::once(head).chain(rows).chain(std::iter::once(last));
        lines.map(|line| line + "\n").collect()
    }

    /// A report that was written as JSON lines.
    pub fn read(path: &Path, text: &str) -> Result<Coverage, Failure> {
        let wrong = |line: usize, what: &str| {
            let rule = "it must be a report of `coverage --report`";
            Failure::bad(format!("{}: line {line}: {}; {rule}", shown(path), printable(what)))
        };
        let lines: Vec<&str> = text.lines().collect();
        let ([first, rows @ .., last], true) = (&lines[..], lines.len() >= 2) else {
            return Err(wrong(1, "the report is not whole"));
        };
        let HeaderLine { coverage: header } =
            serde_json::from_str(first).map_err(|error| wrong(1, &error.to_string()))?;
        if header.list != LIST_VERSION {
            let (list, file) = (header.list, shown(path));
            return Err(Failure::bad(format!(
                "{file}: the report is of list {list} of faults; it must be of list {LIST_VERSION}"
            )));
        }
        let mut read = Vec::new();
        for (number, row) in rows.iter().enumerate() {
            let row = serde_json::from_str(row);
            read.push(row.map_err(|error| wrong(number + 2, &error.to_string()))?);
        }
        let coverage = Coverage { header, rows: read };
        let Totals { complete, totals } = serde_json::from_str(last)
            .map_err(|_| wrong(lines.len(), "the report is not whole"))?;
        if complete != coverage.is_complete() || totals != coverage.counts().1 {
            let what = "the totals are not those of its faults";
            return Err(Failure::bad(format!("{}: {what}; the report was changed", shown(path))));
        }
        Ok(coverage)
    }

    pub fn csv(&self) -> Result<Vec<u8>, Failure> {
        let failed = |error: csv::Error| Failure::bad(format!("CSV: {error}"));
        let mut out = csv::Writer::from_writer(Vec::new());
        out.write_record(["fault", "class", "verdict", "test", "by", "what"]).map_err(failed)?;
        for Row { fault, class, verdict, test, difference, reason } in &self.rows {
            let by = difference.as_ref().map_or("", |found| found.by());
            let what = difference.as_ref().map(|found| found.text()).or(reason.clone());
            let (test, what) = (test.clone().unwrap_or_default(), what.unwrap_or_default());
            out.write_record([fault, class, verdict.word(), &test, by, &what]).map_err(failed)?;
        }
        out.into_inner().map_err(|error| Failure::bad(format!("CSV: {error}")))
    }

    /// The table of classes, and what is missed.
    pub fn text(&self) -> String {
        let (classes, all) = self.counts();
        let mut text = format!(
            "{:<36} {:>7} {:>6} {:>9} {:>8} {:>7} {:>7}\n",
            "class", "faults", "equiv.", "detected", "percent", "never", "masked"
        );
        for count in classes.iter().chain([&all]) {
            let Count { class, faults, equivalent, detected, never_exercised, masked } = count;
            let percent = count.percent().map_or("-".to_string(), short);
            text += &format!(
                "{class:<36} {:>7} {equivalent:>6} {:>9} {percent:>8} {:>7} {masked:>7}\n",
                grouped(*faults as u64),
                grouped(*detected as u64),
                grouped(*never_exercised as u64)
            );
        }
        for (why, title) in MISSED {
            let names = self.missed(why);
            if !names.is_empty() {
                text += &format!("missed, {title}:\n");
                text.extend(names.iter().map(|name| format!("  {name}\n")));
            }
        }
        if !self.header.behaviour.is_empty() {
            text += &behaviour::text(&self.header.behaviour);
        }
        text + &self.last_line(&all)
    }

    fn last_line(&self, all: &Count) -> String {
        let Header { list, list_sha256, plan, coverage_at_least, .. } = &self.header;
        let counted = all.faults - all.equivalent;
        let percent = all.percent().map_or("-".to_string(), short);
        let mut line = format!(
            "plan {}: {percent} % of {} faults of list {list} ({}) detected",
            printable(plan),
            grouped(counted as u64),
            &list_sha256[..12.min(list_sha256.len())]
        );
        if let Some(least) = coverage_at_least {
            line += &format!("; the plan asks for at least {least} %");
        }
        if !self.is_complete() {
            let [done, due] = [self.rows.len(), self.due()].map(|n| grouped(n as u64));
            line += &format!("; incomplete: {done} of {due} faults were tried");
        }
        line + "\n"
    }
}

/// Why faults are missed, in words.
pub const MISSED: [(Verdict, &str); 2] = [
    (Verdict::NotExercised, "never exercised"),
    (Verdict::Masked, "exercised, but nothing that the plan asks for shows it"),
];

/// Two digits after the point, rounded down: 100 is all.
pub fn short(percent: f64) -> String {
    match percent {
        percent if percent >= 100.0 => "100".to_string(),
        percent => format!("{:.2}", (percent * 100.0).floor() / 100.0),
    }
}
