//! A fault followed through a test, from the step before which it cannot act to the first difference that a bench sees.

use vb::{grouped, RECORD_LENGTH};
use vbsys::Processor;

use super::course::{Course, End, Follow, Place, Wait};
use super::cpu::{Effect, Inject};
use super::cycle::Cycle;
use super::die::{Did, Die};
use super::evidence::{image_difference, record_difference, Difference};
use super::reference::{draw, plain_event, Program, Reference};
use super::{vip, Fault};
use crate::eye::Eye;
use crate::inputs::requests::Event;
use crate::inputs::trace::{records, Record};
use crate::plan::{Asked, Ended, Memory};

/// Records that are read at a time.
const PIECE: usize = 1 << 12;

/// What became of a fault in a test.
#[derive(Clone, Debug, PartialEq)]
pub enum Outcome {
    Detected(Difference),
    /// It acts, and nothing that the test asks for shows it.
    Masked,
    /// It never acts.
    NotExercised,
}

/// Follows a fault of the processor's side through a test.
pub fn simulate(reference: &Reference, effect: &Effect, die: &mut Option<Die>) -> Outcome {
    let Some(program) = &reference.program else { return Outcome::NotExercised };
    let inject = effect.inject();
    let Some(from) = program.watch.first(inject.trigger()) else { return Outcome::NotExercised };
    let (mut own, mut place) = program.at(from, die.take());
    if place == Place::default() && from == 0 {
        if program.resets {
            inject.reset(&mut own);
        }
        inject.settle(&mut own);
    }
    let faulty = Faulty::new(reference, Some(inject), None, from);
    let outcome = followed(reference, program, &mut own, &mut place, faulty);
    *die = Some(own);
    outcome
}

/// Follows a fault of the image processor through a test whose program can see what was drawn.
pub fn simulate_drawing(reference: &Reference, fault: &Fault, die: &mut Option<Die>) -> Outcome {
    let (Some(program), Some(first)) = (&reference.program, reference.frames.first()) else {
        return Outcome::NotExercised;
    };
    // its frame is drawn after so many steps: the place before
    let (mut own, mut place) = program.at(first.count.saturating_sub(1), die.take());
    let faulty = Faulty::new(reference, None, Some(fault), first.count.saturating_sub(1));
    let outcome = followed(reference, program, &mut own, &mut place, faulty);
    *die = Some(own);
    outcome
}

fn followed(
    reference: &Reference,
    program: &Program,
    die: &mut Die,
    place: &mut Place,
    mut faulty: Faulty,
) -> Outcome {
    let budget = patience(reference, program);
    let course = Course { test: reference.test, schedule: &program.schedule, budget };
    let end = course.follow(die, place, &mut faulty);
    match faulty.found.take().or_else(|| ended(reference, die, place, end)) {
        Some(found) => Outcome::Detected(found),
        None if die.acted => Outcome::Masked,
        None => Outcome::NotExercised,
    }
}

/// About how many steps it takes until a test can show a fault; none where the fault never acts in it.
pub fn cost(reference: &Reference, effect: &Effect) -> Option<u64> {
    let program = reference.program.as_ref()?;
    let from = program.watch.first(effect.inject().trigger())?;
    let recorded = reference.expected.records.as_ref().map_or(0, |records| records.count());
    if from < recorded {
        return Some(0);
    }
    let drawn = reference.frames.iter().map(|shown| shown.count).find(|count| *count >= from);
    Some(drawn.unwrap_or(program.count).saturating_sub(from) + 1)
}

/// The most steps that a bench waits for: twice the model's and 100,000.
fn patience(reference: &Reference, program: &Program) -> u64 {
    (2 * program.count + 100_000).min(reference.test.budget)
}

/// What is different where all steps were made.
fn ended(reference: &Reference, die: &Die, place: &Place, end: End) -> Option<Difference> {
    let count = place.count();
    let unended = reference.program.as_ref().is_some_and(|program| program.end != end);
    if place.frames < reference.frames.len() || unended {
        let why = match end {
            End::Fatal => "it turns fatal".to_string(),
            End::Halted => "it halts".to_string(),
            End::NotModelled => "it comes to an instruction that is not modelled".to_string(),
            _ => format!("it still runs after {} instructions", grouped(count)),
        };
        return Some(Difference::NoEnd { why });
    }
    let recorded = reference.expected.records.as_ref().map_or(0, |records| records.count());
    if count < recorded {
        return Some(Difference::Length { records: count });
    }
    reference.expected.memories.iter().find_map(|memory| memory_difference(memory, die))
}

/// The first byte of a memory that differs.
fn memory_difference(memory: &Memory, die: &Die) -> Option<Difference> {
    let Memory { region, address, bytes } = memory;
    let seen = die.bytes(*address, bytes.len());
    let first = bytes.iter().zip(seen).position(|(expected, seen)| expected != seen)?;
    Some(Difference::Memory {
        memory: region.to_string(),
        address: address + first as u32,
        expected: bytes[first],
        seen: seen[first],
    })
}

struct Faulty<'a> {
    reference: &'a Reference<'a>,
    /// A fault of the processor's side, or one of the image processor.
    inject: Option<&'a dyn Inject>,
    drawing: Option<&'a Fault>,
    /// The step from which on the fault is there.
    from: u64,
    found: Option<Difference>,
    /// How many records are compared; those of this piece, and the first one's number.
    recorded: u64,
    piece: Vec<Record>,
    first: u64,
    /// Whether a record after the model's last one is a difference.
    ends: bool,
    cycle: Cycle,
}

impl<'a> Faulty<'a> {
    fn new(
        reference: &'a Reference<'a>,
        inject: Option<&'a dyn Inject>,
        drawing: Option<&'a Fault>,
        from: u64,
    ) -> Faulty<'a> {
        let expected = reference.expected;
        let recorded = expected.records.as_ref().map_or(0, |records| records.count());
        let whole = reference.test.trace == Asked::Whole;
        let ends = whole && !matches!(expected.ended, Ended::Budget | Ended::Enough);
        let (found, piece, first, cycle) = (None, Vec::new(), 0, Cycle::new(reference));
        Faulty { reference, inject, drawing, from, found, recorded, piece, first, ends, cycle }
    }

    /// Compares a step's record with the model's.
    fn record(&mut self, number: u64, before: u32, after: &Processor) {
        if number >= self.recorded {
            if self.ends {
                self.found = Some(Difference::Length { records: number + 1 });
            }
            return;
        }
        if number < self.first || number >= self.first + self.piece.len() as u64 {
            self.read(number);
        }
        let Some(expected) = self.piece.get((number - self.first) as usize) else { return };
        let sum = after.regs.iter().fold(0u32, |sum, value| sum.wrapping_add(*value));
        let seen = [before, after.pc, after.psw, sum];
        if seen != *expected {
            self.found = record_difference(number, *expected, seen);
        }
    }

    #[cold]
    fn read(&mut self, number: u64) {
        let mut bytes = Vec::new();
        if let Some(all) = &self.reference.expected.records {
            // what cannot be read is compared with nothing, and stays missed
            let _ = all.bytes(number * RECORD_LENGTH as u64, PIECE * RECORD_LENGTH, &mut bytes);
        }
        (self.piece, self.first) = (records(&bytes).collect(), number);
    }
}

impl Follow for Faulty<'_> {
    fn event(&mut self, die: &mut Die, event: Event, count: u64) {
        let Some(inject) = self.inject.filter(|_| count >= self.from) else {
            return plain_event(die, event);
        };
        match event {
            Event::Tick => inject.tick(die),
            _ => plain_event(die, event),
        }
        inject.settle(die);
    }

    fn advance(&mut self, die: &mut Die, place: &Place, most: u64) -> (u64, Option<Did>) {
        let count = place.count();
        if count < self.from {
            return die.run(most.min(self.from - count));
        }
        let traced = self.recorded > 0;
        if self.inject.is_none() && !traced {
            return die.run(most);
        }
        let inject = self.inject.unwrap_or(Effect::Nothing.inject());
        let mut done = 0;
        while done < most {
            let before = die.state.processor.pc;
            let did = inject.step(die);
            if !did.completed() {
                return (done, Some(did));
            }
            inject.settle(die);
            if traced {
                self.record(count + done, before, &die.state.processor);
            }
            done += 1;
            if self.found.is_some() {
                break;
            }
            if !traced && self.cycle.closed(die) {
                let why = "it is in a loop that nothing ends".to_string();
                self.found = Some(Difference::NoEnd { why });
                break;
            }
        }
        (done, None)
    }

    fn draw(&mut self, die: &mut Die, frame: usize, count: u64) {
        let (buffer, drawing) = (frame as u32 % 2, (&die.state.drawing).into());
        match self.drawing {
            Some(fault) => vip::draw(fault, &mut die.vram, &drawing, buffer),
            None => draw(&mut die.vram, &drawing, buffer),
        }
        if count >= self.from && self.found.is_none() {
            self.found = picture(self.reference, &die.vram, frame);
        }
    }

    fn enough(&self) -> bool {
        self.found.is_some()
    }

    fn waits(&self) -> Wait {
        match self.inject {
            Some(inject) if inject.wakes() => Wait::Step,
            _ => Wait::Jump,
        }
    }
}

/// How a drawn frame differs from the model's.
pub fn picture(reference: &Reference, vram: &[u8], frame: usize) -> Option<Difference> {
    let shown = reference.frames.get(frame)?;
    let buffer = frame as u32 % 2;
    Eye::BOTH.into_iter().filter(|eye| reference.test.eyes.need(*eye)).find_map(|eye| {
        let offset = vb::image_offset(buffer, eye.number());
        let seen = &vram[offset..offset + vb::IMAGE_LENGTH];
        let found = image_difference(&shown.images[eye.number() as usize], seen)?;
        let (x, y, expected, seen, pixels) = found;
        Some(Difference::Picture { frame, eye, x, y, expected, seen, pixels })
    })
}
