//! `vbmodel replay`: a die's recorded trace compared with the model, and the first record that differs explained.

use std::path::PathBuf;

use clap::Args;

use super::Report;
use crate::failure::Failure;
use crate::files::Outputs;
use crate::inputs::number;
use crate::inputs::setup::{Bench, Saves, Setup};
use crate::inputs::trace::{Record, Traces};
use crate::running::replay::{replay, Wish};
use crate::running::session::Session;
use crate::running::waves::Waves;

#[derive(Args)]
#[command(after_help = "Example: the demo's trace to its HALT, and a piece of it
  vbmodel demo
  vbmodel trace --rom out/rom.bin -o a.trace
  vbmodel replay --rom out/rom.bin a.trace
  vbmodel trace --rom out/rom.bin --budget 1_000 -o b.trace
  vbmodel replay --rom out/rom.bin --records 1_000 b.trace

A trace passes when every record agrees and it goes on to the program's end: a HALT with no interrupt accepted, a fatal
exception, or an instruction that is not modelled. A shorter one is invalid. --records N says that N records are enough,
--partial that any number is.
Several traces are compared one after the other, as one: a recorder begins a new file at each tick and each changed line.
When those came is in --schedule, in records (`vbmodel help run`); where the model is halted, the next event comes at
once. A piece alone is partial.
What is expected is the model's, what is seen the trace's. The model's state after the last step may be saved, and a
replay goes on from it with --state.
Exit status: 0 pass; 1 fail: a record differs, or the model is halted or fatal, or turns fatal, where the trace has a
record; 2 invalid: too short, refused or bad input; 130 stopped by Ctrl-C, SIGTERM or SIGHUP.")]
pub struct Options {
    #[command(flatten)]
    setup: Setup,
    /// The trace, 16 bytes per record; several are one after the other; - is standard input
    #[arg(value_name = "TRACE", required = true)]
    traces: Vec<PathBuf>,
    /// When lines are raised and lowered and ticks come; see `vbmodel help run`
    #[arg(long, value_name = "FILE")]
    schedule: Option<PathBuf>,
    /// Ask for N records, and not for the program's end
    #[arg(long, value_name = "N", value_parser = number::records, conflicts_with = "partial")]
    records: Option<u64>,
    /// Ask for as many records as there are, one at least
    #[arg(long)]
    partial: bool,
    /// After a difference go on from the model's own state, and count the later records that differ
    #[arg(long)]
    go_on: bool,
    /// How many of the records before the first wrong one to print
    #[arg(long, value_name = "N", default_value = "4", value_parser = number::few)]
    last: usize,
    /// Where to write each step as a Value Change Dump, for GTKWave: the model's PC, mode, PSW's fields and registers, and
    /// the die's record
    #[arg(long, value_name = "FILE")]
    vcd: Option<PathBuf>,
    #[command(flatten)]
    saves: Saves,
    /// Print JSON
    #[arg(long)]
    pub json: bool,
}

pub fn run(options: &Options) -> Result<Report, Failure> {
    let Options { setup, schedule, saves, records, partial, go_on, last, vcd, .. } = options;
    let mut session = Session::read(setup, schedule.as_deref())?;
    let traces = Traces::open(&options.traces)?;
    session.begin(saves, vcd.as_deref().as_slice())?;
    let Session { bench, schedule, .. } = &mut session;
    let wish =
        Wish { records: *records, partial: *partial, last: *last, go_on: *go_on, progress: true };
    let mut outputs = Outputs::default();
    let mut found = match vcd {
        None => replay(bench, schedule, traces, &wish, None)?,
        Some(path) => {
            let mut waves = Waves::new(path, &bench.machine, true)?;
            let mut seen =
                |pc, bench: &Bench, record: &Record| waves.compared(pc, &bench.machine, record);
            let found = replay(bench, schedule, traces, &wish, Some(&mut seen))?;
            outputs.add_stream(waves.finished());
            found
        }
    };
    saves.add_to(&mut outputs, bench)?;
    outputs.write()?;
    found.written = outputs.paths();
    Ok(Report::new(found.text(), &found, found.status()))
}
