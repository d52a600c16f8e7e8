//! The model's answer to a test: its program is run once, its frames are drawn when the plan says, its records kept.

use std::fs;

use vb::{grouped, record, Answer, Drawing, Refusal, Stop};

use super::writers::Writers;
use super::{Asked, Memory, Records, Source, Test, When};
use crate::behaviour::{Before, Behaviour};
use crate::failure::Failure;
use crate::files::{regular, FileRead};
use crate::inputs::scene::{Read, Scene};
use crate::inputs::schedule::{Part, Schedule};
use crate::inputs::setup::{Bench, Setup};
use crate::interrupt;
use crate::pictures::views::Views;

/// Instructions between two looks at Ctrl-C.
const SLICE: u64 = 4_000_000;

/// What a part must show.
pub struct Expected {
    pub frames: Vec<Frame>,
    pub records: Option<Records>,
    /// The memories that the test asks for, when it has ended.
    pub memories: Vec<Memory>,
    pub ended: Ended,
    /// Instructions that ended.
    pub count: u64,
    /// The files that it was run from, as they were read.
    pub files: Vec<FileRead>,
}

/// A frame, and what it was drawn from.
pub struct Frame {
    /// The frame buffer.
    pub buffer: u32,
    pub views: Views,
    /// VRAM before it was drawn, and the drawing registers.
    pub vram: Vec<u8>,
    pub drawing: Drawing,
}

/// Why a program was not followed further.
#[derive(Clone, Debug, PartialEq, Eq)]
pub enum Ended {
    /// All that the plan asks for was seen.
    Enough,
    Budget,
    /// HALT, and nothing wakes it.
    Halted,
    Fatal,
    Refused(Refusal),
    Stopped,
}

/// Runs a test's program; a plan whose program does not come to its frames is refused.
pub fn expected(test: &Test) -> Result<Expected, Failure> {
    let named = |failure: Failure| Failure {
        message: format!("{}: {}", test.place, failure.message),
        ..failure
    };
    for path in &test.files {
        // a missing file is reported where it is read: there it is known what it must be
        if fs::metadata(path).is_ok() {
            regular(path, "a file").map_err(named)?;
        }
    }
    match &test.source {
        Source::Scene(scene) => of_scene(test, scene).map_err(named),
        Source::Program(setup) => of_program(test, setup, Watch::Nothing).map_err(named),
    }
}

/// What is watched in a run that is made again.
pub enum Watch<'a> {
    Nothing,
    Steps { stops: &'a [u64], see: &'a mut See<'a> },
    Writes(&'a mut Writers),
    Behaviour(&'a mut Behaviour),
}

impl Watch<'_> {
    /// Whether each step is watched.
    fn every_step(&self) -> bool {
        matches!(self, Watch::Writes(_) | Watch::Behaviour(_))
    }
}

/// Is shown the machine where it may be about to make the step of a record, and says whether it makes one. What is done to
/// it there must be undone.
pub type See<'a> = dyn FnMut(u64, &mut Bench) -> bool + 'a;

/// Runs it again and shows the machine before each of these records, which must be in order, after the events of the
/// schedule that come between.
pub fn watched<'a>(
    test: &Test,
    files: &[FileRead],
    stops: &'a [u64],
    see: &'a mut See<'a>,
) -> Result<(), Failure> {
    again(test, files, Watch::Steps { stops, see })
}

/// Runs it again, from files that must be those that it was run from before.
pub fn again(test: &Test, files: &[FileRead], watch: Watch) -> Result<(), Failure> {
    match &test.source {
        Source::Scene(_) => Ok(()),
        Source::Program(setup) => {
            let mut before = files.to_vec();
            let found = of_program(test, setup, watch)?;
            found.files.into_iter().try_for_each(|file| file.noted(&mut before))
        }
    }
}

fn of_scene(test: &Test, scene: &Scene) -> Result<Expected, Failure> {
    let Read { mut vram, drawing, files, .. } = scene.read()?;
    let mut frames = Vec::new();
    for buffer in 0..test.frames.len() as u32 {
        frames.push(drawn(&mut vram.bytes, &drawing, buffer)?);
    }
    let memories = Vec::new();
    Ok(Expected { frames, records: None, memories, ended: Ended::Enough, count: 0, files })
}

fn drawn(vram: &mut [u8], drawing: &Drawing, buffer: u32) -> Result<Frame, Failure> {
    let before = vram.to_vec();
    let done = drawing.draw_frame(vram, buffer);
    done.map_err(|refusal| Failure::refused(&refusal, refusal.to_string()))?;
    Ok(Frame { buffer, views: Views::of(vram, buffer), vram: before, drawing: *drawing })
}

fn of_program(test: &Test, setup: &Setup, mut watch: Watch) -> Result<Expected, Failure> {
    let mut bench = setup.bench()?;
    let schedule = Schedule::given(test.schedule.as_deref())?;
    let files = bench.files().chain(schedule.file.clone()).collect();
    if let Watch::Writes(writers) = &mut watch {
        writers.begin(&bench);
    }
    let only_steps = matches!(watch, Watch::Steps { .. });
    let records = (test.trace != Asked::Nothing && !only_steps).then(Records::default);
    let mut run = Run { test, frames: Vec::new(), records, drawn_here: false, watch };
    let part = &mut |bench: &mut Bench, length, before| run.part(bench, length, before);
    let (count, ended) = schedule.run(&mut bench, test.budget, part)?;
    let ended = ended.unwrap_or(Ended::Budget);
    let Run { frames, records, .. } = run;
    let mut found = Expected { frames, records, memories: Vec::new(), ended, count, files };
    if only_steps {
        return Ok(found);
    }
    if let Some(wrong) = found.wrong(test) {
        return Err(Failure::bad(wrong));
    }
    let memories = test.memory.iter().map(|region| region.read(&bench));
    found.memories = memories.collect::<Result<_, _>>().map_err(Failure::bad)?;
    Ok(found)
}

impl Expected {
    /// Why the program does not give what the test asks for.
    fn wrong(&self, test: &Test) -> Option<String> {
        let count = grouped(self.count);
        let how = match &self.ended {
            Ended::Stopped => return Some(Failure::stopped().message),
            Ended::Refused(refusal) => {
                return Some(format!("after {count} instructions: {refusal}"));
            }
            Ended::Enough => return None,
            Ended::Budget => "its budget is used up".to_string(),
            Ended::Halted => "it halts, and nothing in the schedule wakes it".to_string(),
            Ended::Fatal => "it turns fatal".to_string(),
        };
        if self.frames.len() < test.frames.len() {
            let (next, all) = (self.frames.len(), test.frames.len());
            let when = match test.frames[next] {
                When::Halt => "at a HALT".to_string(),
                When::After(count) => format!("after {} instructions", grouped(count)),
            };
            return Some(format!(
                "after {count} instructions {how}; frame {next} of {all} would be drawn {when}"
            ));
        }
        match (test.trace, self.records.as_ref().map_or(0, Records::count)) {
            (Asked::First(asked), there) if there < asked => {
                let (asked, there) = (grouped(asked), grouped(there));
                Some(format!("{how} after {there} records; the plan asks for {asked}"))
            }
            _ => None,
        }
    }
}

struct Run<'a, 'w> {
    test: &'a Test,
    frames: Vec<Frame>,
    records: Option<Records>,
    /// A frame was drawn at the HALT where the machine still is.
    drawn_here: bool,
    watch: Watch<'w>,
}

impl Run<'_, '_> {
    /// So many instructions, after so many.
    fn part(
        &mut self,
        bench: &mut Bench,
        length: u64,
        before: u64,
    ) -> Result<(u64, Part<Ended>), Failure> {
        let mut done = 0;
        loop {
            self.due(bench, before + done)?;
            if interrupt::asked() {
                return Ok((done, Part::Ended(Ended::Stopped)));
            }
            if self.enough() {
                return Ok((done, Part::Ended(Ended::Enough)));
            }
            if done == length {
                return Ok((done, Part::Done));
            }
            self.show(bench, before + done);
            let most = (length - done).min(self.until_next(before + done));
            let (count, stop) = self.advance(bench, most)?;
            done += count;
            self.drawn_here &= count == 0;
            let ended = match stop {
                Stop::Budget => continue,
                Stop::Halted => {
                    self.due(bench, before + done)?;
                    self.halted(bench)?;
                    self.due(bench, before + done)?;
                    match self.enough() {
                        true => Part::Ended(Ended::Enough),
                        false => Part::Halted(Ended::Halted),
                    }
                }
                Stop::Fatal => Part::Ended(Ended::Fatal),
                Stop::NotModelled(refusal) => Part::Ended(Ended::Refused(refusal)),
            };
            return Ok((done, ended));
        }
    }

    /// Shows the machine where that was asked for. Here the events of the schedule have come that come before the step.
    fn show(&mut self, bench: &mut Bench, count: u64) {
        if let Watch::Steps { stops, see } = &mut self.watch {
            while stops.first() == Some(&count) && see(count, bench) {
                *stops = &stops[1..];
            }
        }
    }

    /// Draws the frames whose count of instructions this is.
    fn due(&mut self, bench: &mut Bench, count: u64) -> Result<(), Failure> {
        while self.test.frames.get(self.frames.len()) == Some(&When::After(count)) {
            self.draw(bench)?;
        }
        Ok(())
    }

    fn halted(&mut self, bench: &mut Bench) -> Result<(), Failure> {
        let next = self.test.frames.get(self.frames.len());
        if self.drawn_here || next != Some(&When::Halt) {
            return Ok(());
        }
        self.drawn_here = true;
        self.draw(bench)
    }

    fn draw(&mut self, bench: &mut Bench) -> Result<(), Failure> {
        let buffer = self.frames.len() as u32 % 2;
        let drawing = bench.machine.drawing;
        if let Watch::Writes(writers) = &mut self.watch {
            writers.frame(self.frames.len(), buffer);
        }
        self.frames.push(drawn(&mut bench.vram, &drawing, buffer)?);
        Ok(())
    }

    /// Whether all frames were drawn and all records were made. A test that asks for memory alone ends with its program.
    fn enough(&self) -> bool {
        if let Watch::Steps { stops, .. } = &self.watch {
            return stops.is_empty();
        }
        if self.test.frames.is_empty() && self.test.trace == Asked::Nothing {
            return false;
        }
        let records = self.records.as_ref().map_or(0, Records::count);
        let recorded = match self.test.trace {
            Asked::Nothing => true,
            Asked::Whole => false,
            Asked::First(count) => records >= count,
        };
        recorded && self.frames.len() == self.test.frames.len()
    }

    /// The most instructions to the next thing to do.
    fn until_next(&self, count: u64) -> u64 {
        let frame = match self.test.frames.get(self.frames.len()) {
            Some(When::After(after)) => after.saturating_sub(count),
            _ => SLICE,
        };
        let stop = match &self.watch {
            Watch::Steps { stops: [stop, ..], .. } => stop.saturating_sub(count),
            _ => SLICE,
        };
        let records = match (&self.records, self.test.trace) {
            (Some(records), Asked::First(asked)) if records.count() < asked => {
                asked - records.count()
            }
            _ => SLICE,
        };
        frame.min(stop).min(records).clamp(1, SLICE)
    }

    /// Runs, step by step where records are made.
    fn advance(&mut self, bench: &mut Bench, most: u64) -> Result<(u64, Stop), Failure> {
        let recording = match (&self.records, self.test.trace) {
            (Some(records), Asked::First(asked)) => records.count() < asked,
            (records, _) => records.is_some(),
        };
        if recording || self.watch.every_step() {
            return self.record(bench, most, recording);
        }
        let (machine, mut memories) = bench.borrowed();
        let ran = machine.run(&mut memories, most);
        ran.map(|ran| (ran.count, ran.stop)).map_err(|refusal| bench.failure(&refusal))
    }

    /// Step by step, with a record of each where records are made.
    fn record(
        &mut self,
        bench: &mut Bench,
        most: u64,
        recording: bool,
    ) -> Result<(u64, Stop), Failure> {
        let mut count = 0;
        while count < most {
            let pc = bench.machine.processor.pc;
            let stop = match self.step(bench) {
                Ok(Answer::Ended | Answer::Trapped(_) | Answer::Interrupted(_)) => {
                    let records = self.records.as_mut().filter(|_| recording);
                    let pushed = records.map(|all| all.push(&record(pc, &bench.machine.processor)));
                    pushed
                        .transpose()
                        .map_err(|error| Failure::bad(format!("the model's records: {error}")))?;
                    count += 1;
                    continue;
                }
                Ok(Answer::WasHalted) => Stop::Halted,
                Ok(Answer::WasFatal | Answer::TurnedFatal(_)) => Stop::Fatal,
                Err(refusal @ Refusal::NotModelled { .. }) => Stop::NotModelled(refusal),
                Err(refusal) => return Err(bench.failure(&refusal)),
            };
            return Ok((count, stop));
        }
        Ok((count, Stop::Budget))
    }

    /// One step, shown to what watches.
    fn step(&mut self, bench: &mut Bench) -> Result<Answer, Refusal> {
        let store = match &self.watch {
            Watch::Writes(writers) => writers.next(bench),
            _ => None,
        };
        let before = matches!(self.watch, Watch::Behaviour(_)).then(|| Before::of(bench));
        let (machine, mut memories) = bench.borrowed();
        let answer = machine.step(&mut memories)?;
        match (&mut self.watch, store, before) {
            (Watch::Writes(writers), Some(store), _) if answer == Answer::Ended => {
                writers.made(bench, store);
            }
            (Watch::Behaviour(behaviour), _, Some(before)) => {
                behaviour.stepped(&before, &answer, &bench.machine.processor);
            }
            _ => {}
        }
        Ok(answer)
    }
}
