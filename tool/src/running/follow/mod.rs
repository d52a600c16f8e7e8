//! A program followed instruction by instruction: what each did, which interrupts came between, and where to stop.

mod effects;
pub mod place;

use std::ops::RangeInclusive;

use clap::Args;
use vb::{Answer, Mode, Refusal};

use crate::failure::Failure;
use crate::inputs::number;
use crate::inputs::schedule::Part;
use crate::inputs::setup::Bench;
use crate::interrupt;
pub use effects::Effects;
use place::At;

/// Where to stop before the budget is used up.
#[derive(Args, Clone, Default)]
pub struct Stops {
    /// Stop when an instruction leads to this address; may be given again
    #[arg(long, value_name = "ADDR", value_parser = number::word)]
    until: Vec<u32>,
    /// Stop before the instruction at this address, the first one too; may be given again
    #[arg(long = "break", value_name = "ADDR", value_parser = number::word)]
    breaks: Vec<u32>,
    /// Stop after an instruction that writes there, by whatever mirror; may be given again
    #[arg(long, value_name = "ADDR[..ADDR]", value_parser = number::addresses)]
    watch: Vec<RangeInclusive<u32>>,
}

impl Stops {
    pub fn is_empty(&self) -> bool {
        self.until.is_empty() && self.breaks.is_empty() && self.watch.is_empty()
    }
}

/// Instructions between two looks at Ctrl-C.
const SLICE: u64 = 65_536;

/// Why following ended.
#[derive(Clone, Debug, PartialEq, Eq)]
pub enum End {
    Budget,
    Halted,
    Fatal,
    NotModelled(Refusal),
    Interrupted,
    /// At an address of --until or --break.
    Reached(u32),
    /// A write into a range of --watch.
    Watched(u32),
    /// The receiver of the instructions wants no more.
    Enough,
    /// At an instruction that read an undefined byte, reported in words (--watch-undefined).
    Undefined(String),
}

/// How many instructions ended, and why no more.
pub struct Followed {
    pub count: u64,
    pub end: End,
}

impl Followed {
    /// The same as a part of a run by a schedule.
    pub fn part(self) -> (u64, Part<End>) {
        let part = match self.end {
            End::Budget => Part::Done,
            End::Halted => Part::Halted(End::Halted),
            end => Part::Ended(end),
        };
        (self.count, part)
    }
}

/// Follows a program. `see` is given each instruction, and answers whether to go on.
pub fn follow(
    bench: &mut Bench,
    budget: u64,
    stops: &Stops,
    see: &mut dyn FnMut(&Effects) -> bool,
) -> Result<Followed, Failure> {
    let watched = stops.watch.iter().map(|range| place::range(bench, range));
    let watched: Vec<(At, usize)> = watched.collect::<Result<_, _>>().map_err(Failure::bad)?;
    let mut count = 0;
    loop {
        if let Some(end) = before(bench, budget, count, stops) {
            return Ok(Followed { count, end });
        }
        let effects = match step(bench) {
            Ok(Some(effects)) => effects,
            Ok(None) => return Ok(Followed { count, end: End::Halted }),
            Err(refusal @ Refusal::NotModelled { .. }) => {
                return Ok(Followed { count, end: End::NotModelled(refusal) })
            }
            Err(refusal) => return Err(bench.failure(&refusal)),
        };
        count += u64::from(!effects.turned_fatal);
        let end = match effects.written_within(bench, &watched) {
            _ if !see(&effects) => End::Enough,
            Some(address) => End::Watched(address),
            None if stops.until.contains(&bench.machine.processor.pc) => {
                End::Reached(bench.machine.processor.pc)
            }
            None => continue,
        };
        return Ok(Followed { count, end });
    }
}

/// Why the next instruction is not done, if it is not.
fn before(bench: &Bench, budget: u64, count: u64, stops: &Stops) -> Option<End> {
    let processor = &bench.machine.processor;
    match processor.mode {
        // a halted machine may still accept an interrupt
        Mode::Halted if count == budget => Some(End::Halted),
        Mode::Halted => None,
        Mode::Fatal => Some(End::Fatal),
        Mode::Running if stops.breaks.contains(&processor.pc) => Some(End::Reached(processor.pc)),
        Mode::Running if count == budget => Some(End::Budget),
        Mode::Running if count.is_multiple_of(SLICE) && interrupt::asked() => {
            Some(End::Interrupted)
        }
        Mode::Running => None,
    }
}

/// One instruction done or interrupt accepted, and what it did; none where the machine stays halted.
pub fn step(bench: &mut Bench) -> Result<Option<Effects>, Refusal> {
    let before = Effects::before(bench)?;
    let (machine, mut memories) = bench.borrowed();
    let (answer, undefined) = machine.step_watched(&mut memories)?;
    let effects = match answer {
        Answer::WasHalted | Answer::WasFatal => return Ok(None),
        Answer::Interrupted(level) => before.interrupted(level).after(bench, None, false),
        Answer::Ended => before.after(bench, None, false),
        Answer::Trapped(cause) => before.after(bench, Some(cause.code()), false),
        Answer::TurnedFatal(cause) => before.after(bench, Some(cause.code()), true),
    };
    Ok(Some(effects.with_undefined(undefined)))
}
