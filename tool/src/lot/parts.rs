//! `parts.csv`: where each part lies on its wafer, and what else is known of it.

use std::collections::HashMap;
use std::path::Path;

use crate::failure::Failure;
use crate::files::{printable, read_hashed, shown, FileRead};
use crate::inputs::table::{table, wrong_row};

const WANTED: &str =
    "a list of parts: CSV whose first line names the columns part, wafer, x, y and others";

/// A part's line.
#[derive(Clone, Debug, Default)]
pub struct Listed {
    pub wafer: Option<String>,
    pub x: Option<i16>,
    pub y: Option<i16>,
    /// Further columns by name.
    pub columns: Vec<(String, String)>,
}

/// What was found on which line, to find it twice.
type Lines<K> = HashMap<K, (u64, String)>;

/// The parts' lines, and the file as it was parsed.
pub fn read(path: &Path) -> Result<(Vec<(String, Listed)>, FileRead), Failure> {
    let (input, read) = read_hashed(path, WANTED)?;
    let text = String::from_utf8(input.bytes.clone())
        .map_err(|_| Failure::bad(input.wrong("not a text file")))?;
    let wrong = |line: u64, rule: String| {
        Failure::bad(format!("{}: line {line}: {}", shown(path), printable(&rule)))
    };
    let (mut reader, heads) = table(&text).map_err(|(line, rule)| wrong(line, rule))?;
    if !heads.iter().any(|head| head == "part") {
        let first = text.trim_start_matches('\u{FEFF}').lines().next().unwrap_or_default();
        return Err(wrong(1, format!("the columns are `{first}`; one must be `part`")));
    }
    let (mut names, mut places) = (Lines::new(), Lines::new());
    let mut all = Vec::new();
    for record in reader.records() {
        let record = record.map_err(|error| {
            let (line, rule) = wrong_row(&error);
            wrong(line, rule)
        })?;
        let line = record.position().map_or(0, |position| position.line());
        let (name, listed) = listed(&heads, &record).map_err(|rule| wrong(line, rule))?;
        if let Some((other, _)) = names.insert(name.clone(), (line, name.clone())) {
            return Err(wrong(line, format!("part {name} is on line {other} too")));
        }
        if let (Some(x), Some(y)) = (listed.x, listed.y) {
            let place = (listed.wafer.clone(), x, y);
            if let Some((_, other)) = places.insert(place, (line, name.clone())) {
                return Err(wrong(
                    line,
                    format!("part {name} lies where part {other} lies, x {x}, y {y}"),
                ));
            }
        }
        all.push((name, listed));
    }
    Ok((all, read))
}

fn listed(
    heads: &csv::StringRecord,
    record: &csv::StringRecord,
) -> Result<(String, Listed), String> {
    let (mut name, mut listed) = (String::new(), Listed::default());
    for (head, value) in heads.iter().zip(record).filter(|(_, value)| !value.is_empty()) {
        let coordinate = || -> Result<Option<i16>, String> {
            // STDF has -32,768 for a place that is not known
            let number = value.parse().ok().filter(|number| *number > i16::MIN);
            number.map(Some).ok_or_else(|| {
                format!("{head} is `{value}`; it must be a whole number from -32,767 to 32,767")
            })
        };
        match head {
            "part" => name = value.to_string(),
            "wafer" => listed.wafer = Some(value.to_string()),
            "x" => listed.x = coordinate()?,
            "y" => listed.y = coordinate()?,
            _ => listed.columns.push((head.to_string(), value.to_string())),
        }
    }
    match (name.is_empty(), listed.x.is_some() == listed.y.is_some()) {
        (true, _) => Err("part is empty; it must be a part's name".to_string()),
        (_, false) => Err("x or y is empty; a part has both or none".to_string()),
        _ => Ok((name, listed)),
    }
}
