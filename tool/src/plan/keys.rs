//! A plan's tables read key by key: every error names the file, the line, what was given and what is allowed.

use std::ops::RangeInclusive;
use std::path::Path;

use toml::value::{Table, Value};
use vb::grouped;

use crate::failure::Failure;
use crate::files::{printable, shown};

/// One table of a plan: the whole file, or the test of a number.
pub struct Keys<'a> {
    pub file: &'a Path,
    pub text: &'a str,
    /// Which `[[test]]` it is, from 0 on; none for what stands above them.
    pub test: Option<usize>,
    pub table: &'a Table,
}

impl Keys<'_> {
    /// The line of a key, or of the table where the key is not written.
    pub fn line(&self, key: &str) -> usize {
        let (mut tests, mut table_line) = (0, 1);
        for (number, line) in self.text.lines().enumerate() {
            let line = line.trim();
            if line.starts_with("[[") {
                tests += 1;
                table_line = if self.test.map(|test| test + 1) == Some(tests) {
                    number + 1
                } else {
                    table_line
                };
            }
            let here = self.test.map_or(tests == 0, |test| tests == test + 1);
            let name = line.split('=').next().unwrap_or_default().trim().trim_matches('"');
            if here && line.contains('=') && name == key {
                return number + 1;
            }
        }
        table_line
    }

    /// What is wrong with a key.
    pub fn wrong(&self, key: &str, rule: impl std::fmt::Display) -> Failure {
        let file = shown(self.file);
        Failure::bad(format!("{file}: line {}: {rule}", self.line(key)))
    }

    /// What was given for a key, and what is allowed.
    pub fn not_allowed(&self, key: &str, allowed: &str) -> Failure {
        let given = self.table.get(key).map_or("not given".to_string(), Value::to_string);
        self.wrong(key, format!("{key} is {}; it must be {allowed}", printable(given.trim())))
    }

    /// Refuses a key that is not known, with the nearest one that is.
    pub fn known(&self, known: &[&str]) -> Result<(), Failure> {
        let Some(other) = self.table.keys().find(|key| !known.contains(&key.as_str())) else {
            return Ok(());
        };
        let near = |known: &&&str| strsim::damerau_levenshtein(known, other);
        let nearest = known.iter().min_by_key(near).copied().unwrap_or_default();
        let meant = match strsim::damerau_levenshtein(nearest, other) {
            0..=3 => format!("did you mean `{nearest}`?"),
            _ => format!("the keys are {}", known.join(", ")),
        };
        Err(self.wrong(other, format!("unknown key `{}`; {meant}", printable(other))))
    }

    pub fn text(&self, key: &str) -> Result<Option<String>, Failure> {
        match self.table.get(key) {
            None => Ok(None),
            Some(Value::String(text)) if !text.trim().is_empty() => Ok(Some(text.clone())),
            Some(_) => Err(self.not_allowed(key, "a text that is not empty, in quotes")),
        }
    }

    pub fn number(&self, key: &str, range: RangeInclusive<u64>) -> Result<Option<u64>, Failure> {
        let Some(value) = self.table.get(key) else { return Ok(None) };
        let number = value.as_integer().and_then(|number| u64::try_from(number).ok());
        match number.filter(|number| range.contains(number)) {
            Some(number) => Ok(Some(number)),
            None => {
                let [least, most] = [*range.start(), *range.end()].map(grouped);
                Err(self.not_allowed(key, &format!("a whole number from {least} to {most}")))
            }
        }
    }

    /// A list of texts.
    pub fn texts(&self, key: &str, allowed: &str) -> Result<Vec<String>, Failure> {
        let Some(value) = self.table.get(key) else { return Ok(Vec::new()) };
        let all = value.as_array().and_then(|all| {
            all.iter().map(|one| one.as_str().map(str::to_string)).collect::<Option<Vec<String>>>()
        });
        all.ok_or_else(|| self.not_allowed(key, allowed))
    }
}
