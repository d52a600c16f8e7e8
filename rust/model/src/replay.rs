//! Replay of a recorded trace (W10): the model steps along the records of a die
//! and reports the first one that differs.

use crate::bus::{DrawingRegisters, Memories};
use crate::processor::{self, Processor, StepAnswer};
use crate::refusal::{refuse_unless, Refusal};

/// "four little-endian words per completed step".
pub const RECORD_LENGTH: usize = 16;

/// "PC before, PC after, PSW after, and the sum of the 32 registers after, mod
/// 2^32."
pub fn record_of(pc_before: u32, after: &Processor) -> [u32; 4] {
    let sum = after.registers.iter().fold(0u32, |sum, &register| sum.wrapping_add(register));
    [pc_before, after.pc, after.psw, sum]
}

/// The bytes of a record.
pub fn record_bytes(record: [u32; 4]) -> [u8; RECORD_LENGTH] {
    let mut bytes = [0; RECORD_LENGTH];
    for (place, word) in bytes.chunks_exact_mut(4).zip(record) {
        place.copy_from_slice(&word.to_le_bytes());
    }
    bytes
}

/// How a replay ended.
#[derive(Clone, Copy, Debug, PartialEq, Eq)]
pub enum Ending {
    /// 1 to 5 or 14 before any step; 6 at the record after the agreed ones.
    Refused(Refusal),
    /// All records agreed.
    Agreed,
    /// The record after the agreed ones differs, first in this word, 0 to 3.
    Differed(u32),
    /// There the model took no step.
    WasHalted,
    WasFatal,
    /// There the model turned fatal.
    TurnedFatal,
}

/// What a replay found.
#[derive(Clone, Copy, Debug, PartialEq, Eq)]
pub struct Replayed {
    pub ending: Ending,
    /// "the length of the longest agreeing prefix", in records.
    pub agreed: u64,
}

/// Refusals 1 to 5, then 14, all before any step.
fn check(
    memories: &Memories,
    processor: &Processor,
    drawing: &DrawingRegisters,
    trace: &[u8],
) -> Result<(), Refusal> {
    processor::check(memories, processor, drawing)?;
    refuse_unless(trace.len().is_multiple_of(RECORD_LENGTH), Refusal::TraceLength)
}

/// One step compared with a record; none where it agrees. That the model refused, took no
/// step or turned fatal is reported first, whatever the record holds.
fn compare_step(
    memories: &mut Memories,
    processor: &mut Processor,
    drawing: &mut DrawingRegisters,
    record: &[u8],
) -> Option<Ending> {
    let pc = processor.pc;
    match processor::step(memories, processor, drawing).map(|stepped| stepped.answer) {
        Err(refusal) => return Some(Ending::Refused(refusal)),
        Ok(StepAnswer::WasHalted) => return Some(Ending::WasHalted),
        Ok(StepAnswer::WasFatal) => return Some(Ending::WasFatal),
        Ok(StepAnswer::TurnedFatal(_)) => return Some(Ending::TurnedFatal),
        Ok(StepAnswer::Ended | StepAnswer::Trapped(_) | StepAnswer::Interrupted(_)) => {}
    }
    let seen = record_bytes(record_of(pc, processor));
    let words = seen.chunks_exact(4).zip(record.chunks_exact(4));
    words.enumerate().find_map(|(number, (seen, recorded))| {
        (seen != recorded).then_some(Ending::Differed(number as u32))
    })
}

/// Steps along the whole trace. "Memory and state afterwards are those after the
/// agreed records, plus a differing step or a turn to fatal."
pub fn replay(
    memories: &mut Memories,
    processor: &mut Processor,
    drawing: &mut DrawingRegisters,
    trace: &[u8],
) -> Replayed {
    if let Err(refusal) = check(memories, processor, drawing, trace) {
        return Replayed { ending: Ending::Refused(refusal), agreed: 0 };
    }
    let mut agreed = 0;
    for record in trace.chunks_exact(RECORD_LENGTH) {
        if let Some(ending) = compare_step(memories, processor, drawing, record) {
            return Replayed { ending, agreed };
        }
        agreed += 1;
    }
    Replayed { ending: Ending::Agreed, agreed }
}
