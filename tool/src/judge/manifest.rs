//! Manifests: TOML with a table `[[part]]` for each part, or CSV with a line for each. Paths are taken from the
//! manifest's folder.

use std::path::Path;

use serde::Deserialize;

use super::{Entry, Lot, Part};
use crate::eye::Eyes;
use crate::failure::Failure;
use crate::files::{printable, shown, FileRead, Input, Reader};
use crate::inputs::capture::LARGEST_THRESHOLD;
use crate::inputs::table::{table, wrong_row};

const MANIFEST: &str = "a manifest, TOML or CSV";
const EYES: [&str; 3] = ["both", "left", "right"];
/// What a CSV may have.
const COLUMNS: [&str; 10] =
    ["name", "state", "vram", "drawing", "frame", "left", "right", "capture", "threshold", "eyes"];

/// What stands above the parts holds for all of them.
#[derive(Deserialize)]
#[serde(deny_unknown_fields)]
struct Toml {
    state: Option<std::path::PathBuf>,
    vram: Option<std::path::PathBuf>,
    drawing: Option<std::path::PathBuf>,
    frame: Option<u32>,
    threshold: Option<u8>,
    eyes: Option<Eyes>,
    #[serde(default)]
    part: Vec<toml::Value>,
}

fn text(path: &Path) -> Result<(Input, String), Failure> {
    let input = Reader::whole(path, MANIFEST)?;
    match String::from_utf8(input.bytes.clone()) {
        // a spreadsheet may put a mark before the text
        Ok(text) => Ok((input, text.trim_start_matches('\u{FEFF}').to_string())),
        Err(_) => Err(Failure::bad(input.wrong(format!("not a text file; it must be {MANIFEST}")))),
    }
}

pub fn toml(path: &Path) -> Result<Lot, Failure> {
    let (input, text) = text(path)?;
    let read: Toml = toml::from_str(&text)
        .map_err(|error| Failure::bad(input.wrong(format!("not a manifest: {error}"))))?;
    let folder = path.parent().unwrap_or(Path::new(""));
    let defaults = Part {
        state: read.state,
        vram: read.vram,
        drawing: read.drawing,
        frame: read.frame,
        threshold: read.threshold,
        eyes: read.eyes,
        ..Part::default()
    };
    let defaults = defaults.within(folder);
    if let Some(wrong) = defaults.out_of_range() {
        return Err(Failure::bad(input.wrong(wrong)));
    }
    let mut lot = Lot { files: vec![FileRead::whole(&input)], ..Lot::default() };
    for (number, value) in read.part.into_iter().enumerate() {
        let place = format!("part {}", number + 1);
        let mut entry = match value.clone().try_into::<Part>() {
            Ok(part) => taken(part, folder, path, place),
            Err(error) => {
                let name = value.get("name").and_then(|name| name.as_str()).map(str::to_string);
                let name = name.filter(|name| !name.trim().is_empty()).unwrap_or(place);
                let rule = value.as_table().and_then(wrong_key).unwrap_or(error.to_string());
                Entry::wrong(name, format!("{}: {}", shown(path), printable(&rule)))
            }
        };
        entry.complete(&defaults);
        lot.entries.push(entry);
    }
    Ok(lot)
}

pub fn csv(path: &Path) -> Result<Lot, Failure> {
    let (input, text) = text(path)?;
    let folder = path.parent().unwrap_or(Path::new(""));
    let (mut reader, heads) = table(&text).map_err(|(line, rule)| {
        Failure::bad(format!("{}: line {line}: {}", shown(path), printable(&rule)))
    })?;
    if !heads.iter().any(|head| head == "name") {
        let rule = "its first line must name the columns: name, and of state, vram, drawing, frame, left, right, \
                    capture, threshold and eyes those that are used";
        return Err(Failure::bad(input.wrong(rule)));
    }
    if let Some(other) = heads.iter().find(|head| !COLUMNS.contains(head)) {
        let rule = format!("unknown column `{other}`; the columns are {}", COLUMNS.join(", "));
        return Err(Failure::bad(format!("{}: line 1: {}", shown(path), printable(&rule))));
    }
    let mut lot = Lot { files: vec![FileRead::whole(&input)], ..Lot::default() };
    for record in reader.records() {
        let wrong = |line: u64, rule: String| {
            Entry::wrong(format!("line {line}"), format!("{}: {}", shown(path), printable(&rule)))
        };
        let row = match record {
            Ok(row) => row,
            Err(error) => {
                let (line, rule) = wrong_row(&error);
                lot.entries.push(wrong(line, rule));
                continue;
            }
        };
        let line = row.position().map_or(0, csv::Position::line);
        let rule = heads.iter().zip(&row).find_map(|(head, value)| wrong_value(head, value));
        lot.entries.push(match (rule, row.deserialize::<Part>(Some(&heads))) {
            (Some(rule), _) => wrong(line, rule),
            (None, Err(error)) => wrong(line, error.to_string()),
            (None, Ok(part)) => taken(part, folder, path, format!("line {line}")),
        });
    }
    Ok(lot)
}

/// What is wrong with a value of a CSV, in place of the reader's words for it.
fn wrong_value(head: &str, value: &str) -> Option<String> {
    let whole = || match value.strip_prefix("0x") {
        Some(digits) => u32::from_str_radix(digits, 16),
        None => value.parse(),
    };
    let allowed = match head {
        _ if value.is_empty() => return None,
        "frame" if whole().is_err() => "0 or 1".to_string(),
        "threshold" if !whole().is_ok_and(|n| n < 256) => format!("1 to {LARGEST_THRESHOLD}"),
        "eyes" if !EYES.contains(&value) => EYES.join(", "),
        _ => return None,
    };
    Some(format!("{head} is `{value}`; it must be {allowed}"))
}

/// The same of a part in TOML.
fn wrong_key(part: &toml::value::Table) -> Option<String> {
    part.iter().find_map(|(key, value)| {
        let number = value.as_integer();
        let allowed = match key.as_str() {
            "frame" if number.is_none_or(|n| u32::try_from(n).is_err()) => "0 or 1".to_string(),
            "threshold" if number.is_none_or(|n| u8::try_from(n).is_err()) => {
                format!("1 to {LARGEST_THRESHOLD}")
            }
            "eyes" if !value.as_str().is_some_and(|eyes| EYES.contains(&eyes)) => EYES.join(", "),
            "frame" | "threshold" | "eyes" => return None,
            key if COLUMNS.contains(&key) && !value.is_str() => "a text in quotes".to_string(),
            _ => return None,
        };
        Some(format!("{key} is {value}; it must be {allowed}"))
    })
}

/// A part as a manifest has it, by its name; one without a name is known by its place.
fn taken(part: Part, folder: &Path, manifest: &Path, place: String) -> Entry {
    let named = !part.name.trim().is_empty();
    let wrong = match part.out_of_range() {
        _ if !named => "the name is empty; it must have at least one character".to_string(),
        Some(wrong) => wrong,
        None => return Entry::of(part.within(folder)),
    };
    let name = if named { part.name } else { place };
    Entry::wrong(name, format!("{}: {wrong}", shown(manifest)))
}

impl Part {
    fn out_of_range(&self) -> Option<String> {
        let Part { state, vram, drawing, left, right, capture, .. } = self;
        let mut files = [state, vram, drawing, left, right, capture].into_iter().flatten();
        if files.any(|path| path == Path::new("-")) {
            return Some(
                "a file is `-`, standard input; it must be the name of a file".to_string(),
            );
        }
        let threshold = self.threshold.filter(|n| !(1..=LARGEST_THRESHOLD).contains(n))?;
        Some(format!("threshold is {threshold}; it must be 1 to {LARGEST_THRESHOLD}"))
    }
}
