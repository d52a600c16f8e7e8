//! `vbmodel step`: a program followed, a line for each instruction.

use std::io::{stdout, BufWriter, ErrorKind, Write};

use clap::Args;

use super::Report;
use crate::failure::Failure;
use crate::files::{printable, Outputs};
use crate::inputs::number;
use crate::inputs::setup::{Saves, Setup};
use crate::reports::json::json;
use crate::running::follow::{follow, Stops};
use crate::running::session::Session;

#[derive(Args)]
#[command(after_help = "Example: the demo's first instructions, and from a store into VRAM on
  vbmodel demo
  vbmodel step --rom out/rom.bin --count 5
  vbmodel run --rom out/rom.bin --watch 0x0003D800..0x0003DBFF --save-processor p --save-wram w --save-vram v
  vbmodel step --rom out/rom.bin --processor p --wram w --vram v

A line has the address, the halfwords, the instruction, and what it did: where it led, the registers that changed, what
it wrote in memory, and bytes it read that are undefined. With --json a line is an object; the last one is the run's.
Exit status: 0 when it ended by its count, a HALT, a fatal exception or where it was asked to stop; 2 refused or bad
input; 130 stopped by Ctrl-C.")]
pub struct Options {
    #[command(flatten)]
    setup: Setup,
    /// The largest number of instructions
    #[arg(long, value_name = "N", default_value = "20", value_parser = number::whole)]
    count: u64,
    #[command(flatten)]
    stops: Stops,
    #[command(flatten)]
    saves: Saves,
    /// Print JSON
    #[arg(long)]
    pub json: bool,
}

pub fn run(options: &Options) -> Result<Report, Failure> {
    let Options { setup, saves, count, stops, .. } = options;
    let mut session = Session::read(setup, None)?;
    session.begin(saves, &[])?;
    let mut out = BufWriter::new(stdout().lock());
    let mut unprinted = None;
    let ended = follow(&mut session.bench, *count, stops, &mut |effects| {
        let line = if options.json { json(effects) } else { printable(&effects.text()) };
        unprinted = writeln!(out, "{line}").err();
        unprinted.is_none()
    })?;
    let unprinted = unprinted.or_else(|| out.flush().err());
    if let Some(error) = unprinted.filter(|error| error.kind() != ErrorKind::BrokenPipe) {
        return Err(Failure::bad(format!("standard output: {error}")));
    }
    Ok(session.finish(&ended, *count, saves, Outputs::default(), None))
}
