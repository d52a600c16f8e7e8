//! The report as CSV: a line for each test of a part.

use std::collections::BTreeSet;

use super::Report;
use crate::failure::Failure;

pub fn csv(report: &Report) -> Result<Vec<u8>, Failure> {
    written(report).map_err(|error| Failure::bad(format!("the CSV: {error}")))
}

fn written(report: &Report) -> Result<Vec<u8>, csv::Error> {
    let columns: BTreeSet<&String> =
        report.parts.iter().flat_map(|part| part.columns.keys()).collect();
    let mut writer = csv::Writer::from_writer(Vec::new());
    let own = ["part", "attempt", "decides", "verdict", "bin", "wafer", "x", "y", "what"];
    let tests = report.header.tests.iter().map(|test| format!("test {}", test.name));
    let heads = own.iter().map(|name| name.to_string()).chain(tests);
    writer.write_record(heads.chain(columns.iter().map(|name| name.to_string())))?;
    for part in &report.parts {
        let number =
            |number: Option<i16>| number.map_or(String::new(), |number| number.to_string());
        let mut row = vec![
            part.part.clone(),
            part.attempt.to_string(),
            if part.decides { "yes" } else { "no" }.to_string(),
            part.verdict.word().to_string(),
            part.bin.to_string(),
            part.wafer.clone().unwrap_or_default(),
            number(part.x),
            number(part.y),
            part.line(),
        ];
        for test in &report.header.tests {
            let tested = part.tests.iter().find(|one| one.test == test.name);
            row.push(tested.map_or("", |one| one.verdict.word()).to_string());
        }
        row.extend(columns.iter().map(|name| part.columns.get(*name).cloned().unwrap_or_default()));
        writer.write_record(row)?;
    }
    writer.into_inner().map_err(|error| std::io::Error::other(error.to_string()).into())
}
