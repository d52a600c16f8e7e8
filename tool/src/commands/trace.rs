//! `vbmodel trace`: a program's trace, as a die's recorder writes it.

use std::path::{Path, PathBuf};
use std::time::Instant;

use clap::Args;
use vb::{grouped, record, Answer, Refusal};

use super::Report;
use crate::failure::Failure;
use crate::files::{shown, Outputs, Stream};
use crate::inputs::number;
use crate::inputs::setup::{Bench, Saves, Setup};
use crate::interrupt;
use crate::reports::progress::Progress;
use crate::running::follow::{End, Followed};
use crate::running::outcome::Traced;
use crate::running::session::Session;
use crate::running::waves::Waves;

/// Records between two looks at the clock and at Ctrl-C.
const SLICE: u64 = 65_536;

#[derive(Args)]
#[command(
    after_help = "Example: the demo's first thousand steps, compared with the model, and as waves
  vbmodel demo
  vbmodel trace --rom out/rom.bin --budget 1_000 -o a.trace --vcd a.vcd
  vbmodel replay --rom out/rom.bin --records 1_000 a.trace

A trace has four little-endian words per completed step: PC before, PC after, PSW after, and the sum of the 32
registers after. An instruction that ended, a HALT, one that trapped and an accepted interrupt have one record each.
Ticks and changed lines have none: they come from --schedule, for `trace` and `replay` alike.
Exit status: 0 recorded, to the budget, a HALT or a fatal exception; 2 refused or bad input, and then nothing is written;
a program that meets an instruction that is not modelled (refusal 6) also ends with 2, and its trace is written; 130
stopped by Ctrl-C, SIGTERM or SIGHUP, with what was recorded so far."
)]
pub struct Options {
    #[command(flatten)]
    setup: Setup,
    /// The largest number of records
    #[arg(long, value_name = "N", default_value = "1_000_000", value_parser = number::whole)]
    budget: u64,
    /// When lines are raised and lowered and ticks come; see `vbmodel help run`
    #[arg(long, value_name = "FILE")]
    schedule: Option<PathBuf>,
    /// Where to write the trace, 16 bytes per record; - is standard output
    #[arg(short, long, value_name = "FILE")]
    out: PathBuf,
    /// Where to write each step as a Value Change Dump, for GTKWave: PC, mode, PSW's fields and the registers
    #[arg(long, value_name = "FILE")]
    vcd: Option<PathBuf>,
    #[command(flatten)]
    saves: Saves,
    /// Print JSON
    #[arg(long)]
    pub json: bool,
}

pub fn run(options: &Options) -> Result<Report, Failure> {
    let Options { setup, schedule, saves, budget, out, vcd, .. } = options;
    let mut session = Session::read(setup, schedule.as_deref())?;
    session.begin(saves, &[&[out.as_path()][..], vcd.as_deref().as_slice()].concat())?;
    let Session { bench, schedule, .. } = &mut session;
    let mut stream = Stream::main(out)?;
    let waves = vcd.as_ref().map(|path| Waves::new(path, &bench.machine, false)).transpose()?;
    let (begun, progress) = (Instant::now(), Progress::new());
    let mut recorder = Recorder { out: &mut stream, waves, begun, progress };
    let (count, end) = schedule.run(bench, *budget, &mut |bench, length, before| {
        recorder.record(bench, length, before).map(Followed::part)
    })?;
    recorder.progress.clear();
    let waves = recorder.waves;
    let ended = Followed { count, end: end.unwrap_or(End::Budget) };
    let mut outputs = Outputs::default();
    outputs.add_stream(stream);
    waves.into_iter().for_each(|waves| outputs.add_stream(waves.finished()));
    let trace = Traced { file: shown(out), records: count, bytes: 16 * count };
    let report = session.finish(&ended, *budget, saves, outputs, Some(trace));
    Ok(Report { aside: out == Path::new("-"), ..report })
}

struct Recorder<'a> {
    out: &'a mut Stream,
    waves: Option<Waves>,
    begun: Instant,
    progress: Progress,
}

impl Recorder<'_> {
    /// So many records, after so many.
    fn record(&mut self, bench: &mut Bench, length: u64, before: u64) -> Result<Followed, Failure> {
        let mut count = 0;
        while count < length {
            if (before + count).is_multiple_of(SLICE) {
                if interrupt::asked() {
                    return Ok(Followed { count, end: End::Interrupted });
                }
                self.show(before + count);
            }
            let (machine, mut memories) = bench.borrowed();
            let pc = machine.processor.pc;
            let end = match machine.step(&mut memories) {
                Ok(Answer::Ended | Answer::Trapped(_) | Answer::Interrupted(_)) => {
                    self.out.write(&record(pc, &machine.processor))?;
                    self.waves.iter_mut().try_for_each(|waves| waves.step(machine))?;
                    count += 1;
                    continue;
                }
                Ok(Answer::WasHalted) => End::Halted,
                Ok(Answer::WasFatal | Answer::TurnedFatal(_)) => End::Fatal,
                Err(refusal @ Refusal::NotModelled { .. }) => End::NotModelled(refusal),
                Err(refusal) => return Err(bench.failure(&refusal)),
            };
            return Ok(Followed { count, end });
        }
        Ok(Followed { count, end: End::Budget })
    }

    fn show(&mut self, count: u64) {
        let rate = count as f64 / self.begun.elapsed().as_secs_f64().max(1e-9) / 1e6;
        self.progress.show(|| format!("{} records, {rate:.1} million a second", grouped(count)));
    }
}
