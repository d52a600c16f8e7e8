//! A die's trace compared with the model, record by record.

mod explanation;
mod found;
mod kept;

use std::collections::VecDeque;
use std::time::Instant;

use vb::{grouped, Answer, Mode, Refusal, Replayed, Word};

pub use explanation::{field, named, Ending, Explanation, Step, FIELDS};
pub use found::{Found, Verdict};

use crate::failure::Failure;
use crate::inputs::schedule::{Part, Schedule};
use crate::inputs::setup::Bench;
use crate::inputs::trace::{records, Record, Traces};
use crate::interrupt;
use crate::reports::progress::Progress;
use kept::Kept;

/// What is asked of a trace.
#[derive(Clone, Debug, Default)]
pub struct Wish {
    /// So many records are enough. None asks for the program's end.
    pub records: Option<u64>,
    /// Any number of records is enough, one at least.
    pub partial: bool,
    /// How many of the records before the first wrong one are reported.
    pub last: usize,
    /// Whether the model goes on from its own state after a difference, and later ones are counted.
    pub go_on: bool,
    /// Whether a terminal shows how far the comparison is.
    pub progress: bool,
}

/// How a comparison ended.
#[derive(Clone, Debug, PartialEq, Eq)]
pub enum End {
    /// With the trace, and with the program: it has no further record, for this reason.
    Whole(&'static str),
    /// With the trace, before the program's end.
    Short,
    Differed(Word),
    /// The model has no step where the trace has a record.
    WasHalted,
    WasFatal,
    TurnedFatal,
    /// Refusal 6.
    Refused(Refusal),
    /// By a signal.
    Stopped,
}

/// The records after the first difference, compared with a model that went on from its own state.
#[derive(Clone, Debug, Default, PartialEq, Eq, serde::Serialize)]
pub struct Later {
    /// How many were compared.
    pub compared: u64,
    /// How many of them differ, and how many by the first word that does.
    pub differ: u64,
    pub by_word: [u64; 4],
    /// The index of the first one that differs.
    pub first: Option<u64>,
}

/// Each step of the model as it is compared: PC before it, the machine after it, and the trace's record.
pub type Seen<'a> = dyn FnMut(u32, &Bench, &Record) -> Result<(), Failure> + 'a;

/// Compares traces, one after the other as one trace, with the model, and explains the first record that differs. The
/// bench holds the machine before the first record, and afterwards the model's state after the last step that was made.
/// `seen` is given each step; then it is slower.
pub fn replay<'a>(
    bench: &mut Bench,
    schedule: &Schedule,
    traces: Traces,
    wish: &'a Wish,
    seen: Option<&'a mut Seen<'a>>,
) -> Result<Found, Failure> {
    let mut replay = Replay {
        traces,
        wish,
        last: VecDeque::new(),
        wrong: None,
        first: None,
        later: Later::default(),
        kept: Kept::of(bench),
        begun: Instant::now(),
        progress: Progress::new(),
        seen,
    };
    let (count, end) = schedule
        .run(bench, u64::MAX, &mut |bench, length, before| replay.part(bench, length, before))?;
    replay.progress.clear();
    replay.found(bench, count, end.unwrap_or(End::Short))
}

struct Replay<'a> {
    traces: Traces,
    wish: &'a Wish,
    /// The last records that agreed.
    last: VecDeque<Record>,
    /// The record where the comparison ended.
    wrong: Option<Record>,
    /// The first difference: its record's index, its word, and what is to be said of it.
    first: Option<(u64, Word, Explanation)>,
    later: Later,
    kept: Kept,
    begun: Instant,
    progress: Progress,
    seen: Option<&'a mut Seen<'a>>,
}

impl Replay<'_> {
    /// So many records, after so many.
    fn part(
        &mut self,
        bench: &mut Bench,
        length: u64,
        before: u64,
    ) -> Result<(u64, Part<End>), Failure> {
        let mut count = 0;
        self.kept.event(&bench.machine.processor.hardware);
        while count < length {
            if interrupt::asked() {
                return Ok((count, Part::Ended(End::Stopped)));
            }
            self.kept.keep(bench);
            let most = if self.seen.is_some() { 1 } else { length - count };
            let pc = bench.machine.processor.pc;
            let piece = self.traces.next(most)?;
            if piece.is_empty() {
                return Ok((count, after_the_trace(bench)?));
            }
            let (machine, mut memories) = bench.borrowed();
            let replayed = machine.replay(&mut memories, piece);
            let Replayed { agreed, end } = replayed.map_err(|refusal| bench.failure(&refusal))?;
            let stepped = matches!(end, vb::End::Agreed | vb::End::Differed(_));
            if let (Some(seen), Some(record), true) =
                (&mut self.seen, records(piece).next(), stepped)
            {
                seen(pc, bench, &record)?;
            }
            self.wrong = records(piece).nth(agreed as usize);
            if self.first.is_none() {
                let skipped = (agreed as usize).saturating_sub(self.wish.last);
                self.last.extend(records(piece).take(agreed as usize).skip(skipped));
                self.last.drain(..self.last.len().saturating_sub(self.wish.last));
            }
            self.traces.used(agreed);
            self.kept.went_on(agreed);
            count += agreed;
            let ended = match end {
                vb::End::Agreed => {
                    self.show(before + count);
                    continue;
                }
                vb::End::Differed(word) => {
                    self.differs(bench, before + count, word)?;
                    if !self.wish.go_on {
                        End::Differed(word)
                    } else {
                        self.traces.used(1);
                        self.kept = Kept::of(bench);
                        count += 1;
                        continue;
                    }
                }
                vb::End::WasHalted => return Ok((count, Part::Halted(End::WasHalted))),
                vb::End::WasFatal => End::WasFatal,
                vb::End::TurnedFatal => End::TurnedFatal,
                vb::End::NotModelled(refusal) => End::Refused(refusal),
            };
            return Ok((count, Part::Ended(ended)));
        }
        Ok((count, Part::Done))
    }

    /// A record that differs: the first one is explained, later ones are counted.
    fn differs(&mut self, bench: &mut Bench, index: u64, word: Word) -> Result<(), Failure> {
        if self.first.is_some() {
            self.later.differ += 1;
            self.later.by_word[word as usize] += 1;
            self.later.first = self.later.first.or(Some(index));
            return Ok(());
        }
        let explanation = self.explained(bench, index, Ending::Differed)?;
        self.first = Some((index, word, explanation));
        Ok(())
    }

    /// What is to be said of a record; the step there is made again, from the state before it.
    fn explained(
        &self,
        bench: &mut Bench,
        index: u64,
        ending: Ending,
    ) -> Result<Explanation, Failure> {
        let after = bench.machine;
        self.kept.restore(bench)?;
        let last: Vec<Record> = self.last.iter().copied().collect();
        let explanation = Step::of(bench, index, ending, &last).explain(self.wrong);
        match bench.machine == after {
            true => Ok(explanation),
            false => Err(Failure::bad(format!(
                "record {index}: the step, made again, does something else"
            ))),
        }
    }

    fn show(&mut self, count: u64) {
        if !self.wish.progress {
            return;
        }
        let rate = count as f64 / self.begun.elapsed().as_secs_f64().max(1e-9) / 1e6;
        let all =
            self.traces.records.map(|all| format!(" of {}", grouped(all))).unwrap_or_default();
        let what = if self.first.is_none() { "agree" } else { "compared" };
        self.progress
            .show(|| format!("{}{all} records {what}, {rate:.1} million a second", grouped(count)));
    }

    fn found(mut self, bench: &mut Bench, count: u64, end: End) -> Result<Found, Failure> {
        let later = self.first.is_some() && self.wish.go_on;
        if let Some((index, word, explanation)) = self.first.take() {
            self.later.compared = count.saturating_sub(index + 1);
            let later = later.then_some((self.later, end));
            return Ok(Found::new(bench, index, End::Differed(word), Some(explanation), later));
        }
        let ending = match end {
            End::Whole(_) | End::Short | End::Stopped => None,
            End::TurnedFatal => Some(Ending::Step),
            _ => Some(Ending::NoStep),
        };
        let explanation = match ending {
            Some(ending) => Some(self.explained(bench, count, ending)?),
            None => None,
        };
        Ok(Found::judged(bench, count, end, explanation, self.wish))
    }
}

/// Whether the program has a further record where the trace has none.
fn after_the_trace(bench: &mut Bench) -> Result<Part<End>, Failure> {
    let (machine, memories) = (bench.machine, bench.memories());
    let (stepping, mut borrowed) = bench.borrowed();
    let answer = stepping.step(&mut borrowed);
    bench.machine = machine;
    // a halted machine writes nothing, whether or not it accepts an interrupt
    if machine.processor.mode == Mode::Running {
        bench.restore_memories(memories);
    }
    Ok(match answer {
        Ok(Answer::WasHalted) => Part::Halted(End::Whole("the processor is halted")),
        Ok(Answer::WasFatal) => Part::Ended(End::Whole("the processor is fatal")),
        Ok(Answer::TurnedFatal(_)) => Part::Ended(End::Whole("the processor turns fatal")),
        Ok(_) => Part::Ended(End::Short),
        Err(Refusal::NotModelled { .. }) => {
            Part::Ended(End::Whole("the next instruction is not modelled (refusal 6)"))
        }
        Err(refusal) => return Err(bench.failure(&refusal)),
    })
}
