//! `vbmodel run`: memory images and records in, at most a budget of instructions, the answer and what was asked for
//! out.

use std::path::PathBuf;
use std::time::Instant;

use clap::Args;
use vb::{grouped, Stop};

use super::Report;
use crate::failure::Failure;
use crate::files::Outputs;
use crate::inputs::number;
use crate::inputs::setup::{Bench, Saves, Setup};
use crate::interrupt;
use crate::reports::progress::Progress;
use crate::running::follow::{follow, End, Followed, Stops};
use crate::running::session::Session;
use crate::running::watch::WatchOptions;

/// Instructions between two looks at the clock and at Ctrl-C.
const SLICE: u64 = 2_000_000;

#[derive(Args)]
#[command(
    after_help = "Example: what does the demo's program do in its first thousand instructions?
  vbmodel demo
  vbmodel run --rom out/rom.bin --budget 1_000

Example: save where it stops, and go on from there; `vbmodel state show a.state` shows what was saved:
  vbmodel run --rom out/rom.bin --budget 1_000 --save-state a.state
  vbmodel run --rom out/rom.bin --state a.state --budget 1_000 --save-state b.state

A saved state holds WRAM, VRAM, pak RAM and both records, which may be separate files instead (--wram, --save-wram
and so on). It does not hold ROM. Form 2 holds request lines and timer and a sum of each body; --state-form 1 leaves them
out, and they come back at reset. Both forms are read.

Example: a program that waits for the VIP's interrupt, which comes after 10,000 instructions and is taken back when its
handler has begun; the timer ticks after every 400. Where the machine is halted, the next of these comes at once:
  printf 'every 400 tick\nat 10_000 raise vip\nat 10_001 lower vip\n' > frame.schedule
  vbmodel run --rom out/rom.bin --schedule frame.schedule
By hand: --raise, --lower and --tick change lines and timer before the run, and --save-processor keeps them.

Example: run to an address, then see what the next instructions do (`vbmodel help step`):
  vbmodel run --rom out/rom.bin --until 0x0700_0000 --save-processor a.processor --save-wram a.wram

Example: which instruction first reads a byte that has no meaning?
  vbmodel run --rom out/rom.bin --watch-undefined

Exit status: 0 when the run ended by its budget, a HALT, a fatal exception or where it was asked to stop; 1 when
--watch-undefined stopped it; 2 when it was refused or a file is bad,
and then nothing is written; 130 when Ctrl-C, SIGTERM or SIGHUP stopped it, and then what it did so far is printed and written. A run that
meets an instruction that is not modelled (refusal 6) also ends with 2, but it has an answer: the state after the
counted instructions, which is printed and written where asked."
)]
pub struct Options {
    #[command(flatten)]
    setup: Setup,
    /// The largest number of instructions
    #[arg(long, value_name = "N", default_value = "20_000_000", value_parser = number::whole)]
    budget: u64,
    /// When lines are raised and lowered and ticks come: lines of `at N EVENT` or `every K EVENT`, N and K in
    /// instructions; an event is `tick`, `raise LEVEL` or `lower LEVEL`
    #[arg(long, value_name = "FILE")]
    schedule: Option<PathBuf>,
    #[command(flatten)]
    stops: Stops,
    #[command(flatten)]
    watch: WatchOptions,
    #[command(flatten)]
    saves: Saves,
    /// Print JSON
    #[arg(long)]
    pub json: bool,
}

pub fn run(options: &Options) -> Result<Report, Failure> {
    let Options { setup, schedule, saves, budget, .. } = options;
    let mut session = Session::read(setup, schedule.as_deref())?;
    session.begin(saves, &[])?;
    let mut watch = options.watch.watch();
    let mut sliced = Sliced { begun: Instant::now(), progress: Progress::new(), budget: *budget };
    let plain = options.stops.is_empty() && !options.watch.is_on();
    let Session { bench, schedule, .. } = &mut session;
    let (count, end) = schedule.run(bench, *budget, &mut |bench, length, before| {
        let part = match plain {
            true => sliced.run(bench, length, before),
            false => follow(bench, length, &options.stops, &mut |effects| watch.goes_on(effects)),
        };
        part.map(Followed::part)
    })?;
    let mut ended = Followed { count, end: end.unwrap_or(End::Budget) };
    if let Some(read) = watch.stopped {
        ended.end = End::Undefined(read);
    }
    Ok(session.finish(&ended, *budget, saves, Outputs::default(), None))
}

/// Runs in slices, with a line on a terminal that says how far it is. The sum of the slices is one run.
struct Sliced {
    begun: Instant,
    progress: Progress,
    /// The whole run's.
    budget: u64,
}

impl Sliced {
    /// A part of the run, of so many instructions, after so many.
    fn run(&mut self, bench: &mut Bench, length: u64, before: u64) -> Result<Followed, Failure> {
        let mut count = 0;
        loop {
            let (machine, mut memories) = bench.borrowed();
            let ran = machine.run(&mut memories, (length - count).min(SLICE));
            let ran = ran.map_err(|refusal| bench.failure(&refusal))?;
            count += ran.count;
            let end = match ran.stop {
                Stop::Budget if before + count < self.budget && interrupt::asked() => {
                    Some(End::Interrupted)
                }
                Stop::Budget if count < length => None,
                Stop::Budget => Some(End::Budget),
                Stop::Halted => Some(End::Halted),
                Stop::Fatal => Some(End::Fatal),
                Stop::NotModelled(refusal) => Some(End::NotModelled(refusal)),
            };
            self.show(before + count);
            if let Some(end) = end {
                if end != End::Budget || before + count == self.budget {
                    self.progress.clear();
                }
                return Ok(Followed { count, end });
            }
        }
    }

    fn show(&mut self, count: u64) {
        let Sliced { begun, progress, budget } = self;
        progress.show(|| {
            let rate = count as f64 / begun.elapsed().as_secs_f64() / 1e6;
            let (done, all) = (grouped(count), grouped(*budget));
            format!("{done} of at most {all} instructions, {rate:.0} million a second")
        });
    }
}
