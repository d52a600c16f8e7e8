//! Why parts fail: the pictures of the first of them, and what the model did where a trace first differs.

use super::attempt::Model;
use super::case::{Evidence, Shot};
use super::evidence::Files;
use crate::eye::Eye;
use crate::failure::Failure;
use crate::inputs::setup::Bench;
use crate::inputs::trace::Record;
use crate::lot::Lot;
use crate::pictures::difference::{differences, Difference};
use crate::pictures::explain::{explain, Question};
use crate::plan::{watched, writers, Frame, Records, Test};
use crate::report::{Detail, EyeFound, MemoryFound, Part, Pixel, TraceExplained, TraceFound, Zoom};
use crate::running::replay::{named, Ending, Explanation, Step};

/// Parts of a verdict that have pictures.
pub const PICTURED: usize = 200;
/// Instructions that are shown before a record.
const BEFORE: u64 = 8;
/// Columns and rows of an enlarged piece.
const PIECE: (usize, usize) = (32, 24);

/// Says of every trace that differs what the model did there, as `replay` does. Each program is run once more.
pub fn explain_traces(model: Model, parts: &mut [Part]) -> Result<(), Failure> {
    for (number, test) in model.plan.tests.iter().enumerate() {
        let Some(records) = &model.expected[number].records else { continue };
        let traces =
            parts.iter_mut().filter_map(|part| part.tests.get_mut(number)?.trace.as_deref_mut());
        let mut traces: Vec<&mut TraceFound> =
            traces.filter(|trace| trace.expected.is_some()).collect();
        traces.sort_by_key(|trace| trace.record);
        let mut stops: Vec<u64> = traces.iter().map(|trace| trace.record).collect();
        stops.dedup();
        if stops.is_empty() {
            continue;
        }
        let mut traces = traces.into_iter().peekable();
        watched(test, model.files, &stops, &mut |record, bench| {
            let step = step_at(bench, record, records);
            if !step.was_made() {
                return false;
            }
            while let Some(trace) = traces.next_if(|trace| trace.record == record) {
                let explanation = step.explain(Some(trace.seen));
                trace.explained = Some(TraceExplained::of(&explanation));
            }
            true
        })?;
    }
    Ok(())
}

/// The model's step at a record; the bench is left as it was.
fn step_at(bench: &mut Bench, record: u64, records: &Records) -> Step {
    let first = record.saturating_sub(BEFORE);
    let last = records.some(first, (record - first) as usize).unwrap_or_default();
    let (machine, memories) = (bench.machine, bench.memories());
    let step = Step::of(bench, record, Ending::Differed, &last);
    bench.machine = machine;
    bench.restore_memories(memories);
    step
}

impl TraceExplained {
    fn of(found: &Explanation) -> TraceExplained {
        let flags = |record: &Option<Record>| record.map_or(String::new(), |one| named(one[2]));
        TraceExplained {
            instruction: found
                .instruction
                .as_ref()
                .map_or(String::new(), |one| one.instruction.clone()),
            did: found.instruction.as_ref().map_or(String::new(), |one| one.text()),
            operands: found.operands.clone(),
            flags_expected: flags(&found.expected_record),
            flags_seen: flags(&found.seen_record),
            hints: found.hints.clone(),
            before: found.lines_before().iter().map(|line| line.trim_start().to_string()).collect(),
        }
    }
}

/// Says of every memory that differs which instruction of the model wrote its first byte last. Each program is run once
/// more.
pub fn explain_memories(model: Model, parts: &mut [Part]) -> Result<(), Failure> {
    for (number, test) in model.plan.tests.iter().enumerate() {
        let found = parts.iter_mut().filter_map(|part| part.tests.get_mut(number));
        let found: Vec<&mut MemoryFound> = found.flat_map(|test| &mut test.memories).collect();
        if found.is_empty() {
            continue;
        }
        let addresses: Vec<u32> = found.iter().map(|memory| memory.address).collect();
        let writers = writers(test, model.files, &addresses)?;
        for memory in found {
            memory.written_by = writers.get(&memory.address).cloned();
        }
    }
    Ok(())
}

/// Makes the pictures of a part's captures that differ. They are read again, and must be what they were.
pub fn picture(model: Model, lot: &Lot, part: &mut Part, pixels: usize) -> Result<(), Failure> {
    let owner = lot.parts.iter().find(|one| one.name == part.part);
    let attempt = owner.and_then(|one| one.attempts.iter().find(|one| one.number == part.attempt));
    let Some(attempt) = attempt else { return Ok(()) };
    let Part { tests, files: read, details, .. } = part;
    for (number, tested) in tests.iter().enumerate() {
        let (test, expected) = (&model.plan.tests[number], &model.expected[number]);
        let mut evidence = Files { test, expected, number, attempt, read };
        for found in &tested.eyes {
            let shots = evidence.frame(found.frame)?;
            let shot = shots.into_iter().nth(found.eye.number() as usize);
            let shot = shot.unwrap_or(Ok(None))?;
            let shot = shot.ok_or_else(|| Failure::bad(format!("{}: is gone", found.capture)))?;
            details.push(detail(test, &expected.frames[found.frame], found, &shot, pixels)?);
        }
    }
    Ok(())
}

fn detail(
    test: &Test,
    frame: &Frame,
    found: &EyeFound,
    shot: &Shot,
    pixels: usize,
) -> Result<Detail, Failure> {
    let expected = frame.views.eye(found.eye);
    let all = differences(expected, &shot.picture);
    let why = all.iter().take(pixels).map(|pixel| explained_pixel(frame, found.eye, pixel));
    Ok(Detail {
        test: test.name.clone(),
        frame: found.frame,
        eye: found.eye,
        model: base64::encode(expected.png(1)),
        changes: base64::encode(expected.changes(&shot.picture)),
        marks: base64::encode(expected.marks(&shot.picture)),
        zoom: Zoom::around(&found.first),
        pixels: why.collect::<Result<_, _>>()?,
    })
}

impl Zoom {
    pub fn around(first: &Difference) -> Zoom {
        let (width, height) = PIECE;
        Zoom {
            left: first.x.saturating_sub(width / 2).min(vb::COLUMNS - width),
            top: first.y.saturating_sub(height / 2).min(vb::ROWS - height),
        }
    }
}

fn explained_pixel(frame: &Frame, eye: Eye, pixel: &Difference) -> Result<Pixel, Failure> {
    let why = explain(&Question {
        vram: &frame.vram,
        drawing: &frame.drawing,
        eye: eye.model(),
        x: pixel.x as u32,
        y: pixel.y as u32,
        library_value: pixel.expected,
        every_object: false,
    })?;
    Ok(Pixel { pixel: *pixel, because: why.winner(), text: why.text() })
}
