//! What `run`, `step`, `trace` and `replay` begin and end with: a machine from files, a schedule, and outputs that can
//! be written.

use std::path::Path;

use vb::Mode;

use super::follow::{End, Followed};
use super::outcome::{Outcome, Traced};
use crate::commands::Report;
use crate::failure::Failure;
use crate::files::Outputs;
use crate::inputs::schedule::Schedule;
use crate::inputs::setup::{Bench, Saves, Setup};
use crate::interrupt;

pub struct Session {
    pub bench: Bench,
    pub schedule: Schedule,
    was_fatal: bool,
}

impl Session {
    /// Reads the machine and the schedule.
    pub fn read(setup: &Setup, schedule: Option<&Path>) -> Result<Session, Failure> {
        let mut bench = setup.bench()?;
        let schedule = Schedule::given(schedule)?;
        tested(&mut bench)?;
        let was_fatal = bench.machine.processor.mode == Mode::Fatal;
        Ok(Session { bench, schedule, was_fatal })
    }

    /// Tests that every output can be written, `others` among them; from here on a signal asks to stop.
    pub fn begin(&self, saves: &Saves, others: &[&Path]) -> Result<(), Failure> {
        saves.test(others)?;
        interrupt::watch();
        Ok(())
    }

    /// Writes what was asked for, with the files that the run has made, and reports how it ended whether or not they
    /// could be written.
    pub fn finish(
        &self,
        ended: &Followed,
        budget: u64,
        saves: &Saves,
        mut outputs: Outputs,
        trace: Option<Traced>,
    ) -> Report {
        let written = saves.add_to(&mut outputs, &self.bench).and_then(|()| outputs.write());
        let failure = written.err();
        let paths = if failure.is_none() { outputs.paths() } else { Vec::new() };
        let bench = &self.bench;
        let mut outcome = Outcome::of(bench, ended, budget, paths, self.was_fatal, failure.clone());
        outcome.trace = trace.filter(|_| failure.is_none());
        outcome.not_stored = saves.not_stored().filter(|_| failure.is_none());
        let status = match &ended.end {
            _ if failure.is_some() => 2,
            End::Interrupted => interrupt::STATUS,
            End::NotModelled(_) => 2,
            End::Undefined(_) => 1,
            _ => 0,
        };
        Report { failure, ..Report::new(outcome.text(), &outcome, status) }
    }
}

/// A run of nothing tests the machine.
fn tested(bench: &mut Bench) -> Result<(), Failure> {
    let (machine, mut memories) = bench.borrowed();
    let tested = machine.run(&mut memories, 0);
    tested.map(|_| ()).map_err(|refusal| bench.failure(&refusal))
}
