//! `vbmodel merge`: the reports of a lot's shards as one.

use std::collections::BTreeMap;
use std::path::{Path, PathBuf};
use std::time::Instant;

use clap::Args;

use super::Report;
use crate::failure::Failure;
use crate::files::{shown, Reader};
use crate::report::{self, read_lines, Forms};

#[derive(Args)]
#[command(after_help = "Example: a lot judged in two halves, on two machines, and put together
  vbmodel judge --plan plan.toml lot --shard 1/2 --report 1.json
  vbmodel judge --plan plan.toml lot --shard 2/2 --report 2.json
  vbmodel merge 1.json 2.json --html report.html

Reports of another plan, lot or model are refused, and so are a shard that is missing or is given twice, a report that was
cut or edited, and shards of a lot whose parts changed in between.
Exit status: 0 all pass; 1 some fail; 2 some are invalid, or the reports are not those of one lot; 3 in a part the
independent model and the library differ.")]
pub struct Options {
    /// The reports that `judge --shard K/N --report` wrote
    #[arg(value_name = "REPORT", required = true)]
    reports: Vec<PathBuf>,
    #[command(flatten)]
    forms: Forms,
    /// Print JSON
    #[arg(long)]
    pub json: bool,
}

pub fn run(options: &Options) -> Result<Report, Failure> {
    let begun = Instant::now();
    let mut shards: BTreeMap<usize, (report::Report, &Path)> = BTreeMap::new();
    let mut of = 0;
    for path in &options.reports {
        let report = read(path)?;
        let named = |rule: String| Failure::bad(format!("{}: {rule}", shown(path)));
        let shard = report.header.shard;
        let shard = shard.ok_or_else(|| named("is not the report of a shard".to_string()))?;
        if let Some((first, _)) = shards.values().next() {
            first.header.joins(&report.header).map_err(|failure| named(failure.message))?;
            if shard.of != of {
                return Err(named(format!(
                    "is a shard of {}; the first report is one of {of}",
                    shard.of
                )));
            }
        }
        of = shard.of;
        if let Some((_, other)) = shards.insert(shard.number, (report, path)) {
            let rule = format!("is shard {} of {of}, as is {}", shard.number, shown(other));
            return Err(named(rule));
        }
    }
    if let Some(missing) = (1..=of).find(|number| !shards.contains_key(number)) {
        return Err(Failure::bad(format!("shard {missing} of {of} is missing")));
    }
    let shards: Vec<report::Report> = shards.into_values().map(|(report, _)| report).collect();
    let whole = joined(shards);
    if let Some(what) = whole.contradiction() {
        return Err(Failure::bad(format!("the shards are not those of one lot: {what}")));
    }
    options.forms.test()?;
    options.forms.written(&whole, begun.elapsed().as_secs_f64())
}

pub fn read(path: &Path) -> Result<report::Report, Failure> {
    let mut text = Vec::new();
    Reader::each(path, "a report of `judge --report`", 1 << 20, &mut |block| {
        text.extend_from_slice(block);
        Ok(())
    })?;
    let text = String::from_utf8(text)
        .map_err(|_| Failure::bad(format!("{}: not a text file", shown(path))))?;
    read_lines(path, &text)
}

/// The parts by name, as the whole lot has them.
fn joined(shards: Vec<report::Report>) -> report::Report {
    let not_judged = shards.iter().map(|one| one.not_judged).sum();
    let mut header = shards[0].header.clone();
    header.shard = None;
    header.command = crate::reports::invocation::command();
    let mut parts: Vec<report::Part> = shards.into_iter().flat_map(|one| one.parts).collect();
    parts.sort_by(|a, b| (&a.part, a.attempt).cmp(&(&b.part, b.attempt)));
    report::Report { header, parts, not_judged }
}
