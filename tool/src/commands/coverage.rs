//! `vbmodel coverage`: which bad parts a plan would pass.

use std::path::{Path, PathBuf};
use std::time::SystemTime;

use clap::Args;
use sha2::{Digest, Sha256};

use super::Report;
use crate::behaviour::behaviour;
use crate::failure::Failure;
use crate::faults::coverage::{cover, references};
use crate::faults::report::{Coverage, Header};
use crate::faults::{digest, list, names, Fault, LIST_VERSION};
use crate::files::Outputs;
use crate::interrupt;
use crate::judge::model_of;
use crate::plan::{Expected, Plan};
use crate::report::{shard, FileRead, Identity, Shard};
use crate::reports::invocation;

#[derive(Args)]
#[command(after_help = "Example: what the demo's plan would miss
  vbmodel demo --lot demo-lot
  vbmodel coverage --plan demo-lot/plan.toml

Each fault of the list is put into a simulated die, which runs the plan's programs and is judged as a part is, by the
plan's pictures, traces and memories. `vbmodel faults` prints the list. A percentage is of the faults of this list that a
program can show; it says nothing of other faults.
Exit status: 0 done; 1 less is detected than the plan's `coverage_at_least`; 2 bad input; 130 stopped by Ctrl-C, and then
the report says that it is incomplete.")]
pub struct Options {
    /// The test plan, TOML
    #[arg(long, value_name = "FILE")]
    plan: PathBuf,
    /// Which faults, such as 'cpu.reg.*'; may be given again [default: the plan's `faults`, or all]
    #[arg(long, value_name = "PATTERN")]
    faults: Vec<String>,
    /// Also list which instructions, operands, flags, accesses, exceptions, worlds and objects the plan exercises, and
    /// which it does not
    #[arg(long)]
    behaviour: bool,
    /// Try every N-th fault, from the K-th on
    #[arg(long, value_name = "K/N", value_parser = shard)]
    shard: Option<Shard>,
    /// Where to write the report as JSON, a value on each line, for `merge` and `judge --coverage`
    #[arg(long, value_name = "FILE")]
    report: Option<PathBuf>,
    /// Where to write a line for each fault as CSV
    #[arg(long, value_name = "FILE")]
    csv: Option<PathBuf>,
    /// Print JSON, the report's lines
    #[arg(long)]
    pub json: bool,
}

impl Options {
    fn outputs(&self) -> impl Iterator<Item = &Path> {
        [&self.report, &self.csv].into_iter().flatten().map(PathBuf::as_path)
    }
}

pub fn run(options: &Options) -> Result<Report, Failure> {
    let plan = Plan::read(&options.plan)?;
    let all = list();
    let chosen = names::chosen(&all, &options.faults).map_err(Failure::bad)?;
    Outputs::test(options.outputs())?;
    interrupt::watch();
    let (expected, files) = model_of(&plan)?;
    let mut header = header(options, &plan, &expected, &files, &all, chosen.len());
    if options.behaviour {
        header.behaviour = behaviour(&plan.tests, &expected)?;
    }
    let references = references(&plan, &expected)?;
    let mine = chosen.into_iter().enumerate();
    let mine = mine.filter(|(n, _)| options.shard.is_none_or(|shard| shard.has(*n)));
    let mine: Vec<&Fault> = mine.map(|(_, fault)| fault).collect();
    let rows = cover(&references, &mine);
    written(options, &Coverage { header, rows })
}

fn header(
    options: &Options,
    plan: &Plan,
    expected: &[Expected],
    files: &[FileRead],
    all: &[Fault],
    faults: usize,
) -> Header {
    Header {
        list: LIST_VERSION,
        list_sha256: digest(all),
        plan: plan.name.clone(),
        plan_sha256: plan_hash(files),
        chosen: options.faults.clone(),
        faults,
        shard: options.shard,
        coverage_at_least: None,
        instructions: expected.iter().map(|expected| expected.count).sum(),
        behaviour: Vec::new(),
        model: Identity::now(),
        command: invocation::command(),
        date: humantime::format_rfc3339_seconds(SystemTime::now()).to_string(),
    }
}

/// The SHA-256 of the SHA-256s of a plan's files, a line each: the same wherever the folder is.
fn plan_hash(files: &[FileRead]) -> String {
    let all: String = files.iter().map(|file| format!("{}\n", file.sha256)).collect();
    let hash = Sha256::digest(all.as_bytes());
    hash.iter().map(|byte| format!("{byte:02x}")).collect()
}

fn written(options: &Options, coverage: &Coverage) -> Result<Report, Failure> {
    let mut outputs = Outputs::default();
    let lines = coverage.json_lines();
    if let Some(path) = &options.report {
        outputs.add(path, lines.clone().into_bytes());
    }
    if let Some(path) = &options.csv {
        outputs.add(path, coverage.csv()?);
    }
    let failure = outputs.write().err();
    let paths = if failure.is_none() { outputs.paths() } else { Vec::new() };
    let mut text = coverage.text();
    text.extend(paths.iter().map(|path| format!("written: {path}\n")));
    let status = if failure.is_some() { 2 } else { coverage.status() };
    let json = lines.trim_end().to_string();
    Ok(Report { text, json, status, failure, aside: false })
}
