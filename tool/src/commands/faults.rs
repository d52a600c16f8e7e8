//! `vbmodel faults`: the list of faults that a die can have.

use clap::Args;
use serde::Serialize;
use vb::grouped;

use super::Report;
use crate::failure::Failure;
use crate::faults::{digest, list, names, Fault, LIST_VERSION};
use crate::reports::json::json;

#[derive(Args)]
#[command(after_help = "Example: the stuck bits of register 2
  vbmodel faults 'cpu.reg.r2.*'

A name is unit.class.place.bit.kind and keeps its meaning for ever. In a pattern `*` stands for any text and `?` for one
character. A fault that no program can show is marked as equivalent, with the reason; it never counts as missed.
Exit status: 0 printed; 2 no fault has such a name.")]
pub struct Options {
    /// Which faults; all without it
    #[arg(value_name = "PATTERN")]
    patterns: Vec<String>,
    /// Print JSON, a line for the list and one for each fault
    #[arg(long)]
    pub json: bool,
}

/// The first line of the JSON.
#[derive(Serialize)]
struct Head<'a> {
    list: u32,
    sha256: &'a str,
    faults: usize,
    equivalent: usize,
}

#[derive(Serialize)]
struct One<'a> {
    fault: &'a str,
    class: &'a str,
    meaning: &'a str,
    #[serde(skip_serializing_if = "Option::is_none")]
    equivalent: Option<&'a str>,
}

pub fn run(options: &Options) -> Result<Report, Failure> {
    let all = list();
    let chosen = names::chosen(&all, &options.patterns).map_err(Failure::bad)?;
    let sha256 = digest(&all);
    let equivalent = chosen.iter().filter(|fault| fault.equivalent.is_some()).count();
    let head = Head { list: LIST_VERSION, sha256: &sha256, faults: chosen.len(), equivalent };
    let mut lines = vec![json(&head)];
    lines.extend(chosen.iter().map(|fault| {
        let Fault { name, class, meaning, equivalent, .. } = fault;
        json(&One { fault: name, class, meaning, equivalent: *equivalent })
    }));
    let mut text: String = chosen.iter().map(|fault| line(fault)).collect();
    text += &format!(
        "{} faults of list {LIST_VERSION}, {} of them equivalent; SHA-256 of the list {sha256}\n",
        grouped(chosen.len() as u64),
        grouped(equivalent as u64)
    );
    Ok(Report { text, json: lines.join("\n"), status: 0, failure: None, aside: false })
}

fn line(fault: &Fault) -> String {
    let why = fault.equivalent.map_or(String::new(), |why| format!(" (equivalent: {why})"));
    format!("{}  {}{why}\n", fault.name, fault.meaning)
}
