//! The forms in which a report is written, as options of the commands that make one.

use std::path::{Path, PathBuf};

use clap::Args;

use super::{csv, html, json_lines, junit, stdf, text, Report, Totals};
use crate::commands;
use crate::failure::Failure;
use crate::files::Outputs;

#[derive(Args)]
pub struct Forms {
    /// Where to write the report as one HTML page with its pictures
    #[arg(long, value_name = "FILE")]
    pub html: Option<PathBuf>,
    /// Where to write the verdicts as JUnit XML
    #[arg(long, value_name = "FILE")]
    pub junit: Option<PathBuf>,
    /// Where to write the whole report as JSON, a value on each line, for `verify` and, of a plan's shards, `merge`
    #[arg(long, value_name = "FILE")]
    pub report: Option<PathBuf>,
    /// Where to write a line for each part as CSV
    #[arg(long, value_name = "FILE")]
    pub csv: Option<PathBuf>,
    /// Where to write the report as STDF V4
    #[arg(long, value_name = "FILE")]
    pub stdf: Option<PathBuf>,
}

impl Forms {
    fn paths(&self) -> impl Iterator<Item = &Path> {
        let Forms { html, junit, report, csv, stdf } = self;
        [html, junit, report, csv, stdf].into_iter().flatten().map(PathBuf::as_path)
    }

    /// Whether all of them could be written.
    pub fn test(&self) -> Result<(), Failure> {
        Outputs::test(self.paths())
    }

    /// Whether a form has pictures.
    pub fn has_pictures(&self) -> bool {
        self.html.is_some() || self.report.is_some()
    }

    /// What was asked for, to be written.
    pub fn outputs(
        &self,
        report: &Report,
        totals: &Totals,
        seconds: f64,
    ) -> Result<Outputs, Failure> {
        let mut outputs = Outputs::default();
        if let Some(path) = &self.html {
            outputs.add(path, html::page(report, totals)?.into_bytes());
        }
        if let Some(path) = &self.junit {
            outputs.add(path, junit::junit(report, totals, seconds)?);
        }
        if let Some(path) = &self.report {
            outputs.add(path, json_lines(report, totals, true).into_bytes());
        }
        if let Some(path) = &self.csv {
            outputs.add(path, csv::csv(report)?);
        }
        if let Some(path) = &self.stdf {
            outputs.add(path, stdf::stdf(report, totals));
        }
        Ok(outputs)
    }

    /// Writes the forms that were asked for, and gives what is printed.
    pub fn written(&self, report: &Report, seconds: f64) -> Result<commands::Report, Failure> {
        let totals = Totals::of(report);
        let outputs = self.outputs(report, &totals, seconds)?;
        let failure = outputs.write().err();
        let written = if failure.is_none() { outputs.paths() } else { Vec::new() };
        drop(outputs);
        let mut text = text(report, &totals);
        text.extend(written.iter().map(|path| format!("written: {path}\n")));
        let json = json_lines(report, &totals, false).trim_end().to_string();
        let status = if failure.is_some() { 2 } else { totals.status() };
        Ok(commands::Report { text, json, status, failure, aside: false })
    }
}
