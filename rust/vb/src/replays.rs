//! Replay of a recorded trace.

use vbsys::Memories;

use crate::records::{Machine, Processor};
use crate::refusal::Refusal;

/// Bytes of a trace's record.
pub const RECORD_LENGTH: usize = 16;

/// A word of a trace's record, in the record's order.
#[derive(Clone, Copy, Debug, PartialEq, Eq)]
pub enum Word {
    /// PC before the step.
    PcBefore,
    /// PC after the step.
    PcAfter,
    /// PSW after the step.
    PswAfter,
    /// The sum of the 32 general registers after the step, mod 2^32.
    Sum,
}

/// What a replay found.
#[derive(Clone, Debug, PartialEq, Eq)]
pub struct Replayed {
    /// How many records agreed; below the trace's number of records it is the index of the record reported.
    pub agreed: u64,
    /// How it ended.
    pub end: End,
}

/// How a replay ended.
#[derive(Clone, Debug, PartialEq, Eq)]
pub enum End {
    /// Every record agreed.
    Agreed,
    /// The record differs first in this word; the step stays made.
    Differed(Word),
    /// The model is halted and accepts no interrupt where the trace has a record.
    WasHalted,
    /// The model is fatal where the trace has a record.
    WasFatal,
    /// The model turned fatal where the trace has a record.
    TurnedFatal,
    /// The next instruction is not modelled (refusal 6).
    NotModelled(Refusal),
}

/// The record of a completed step: PC before it, and the processor after it.
pub fn record(before: u32, after: &Processor) -> [u8; RECORD_LENGTH] {
    let sum = after.regs.iter().fold(0u32, |sum, value| sum.wrapping_add(*value));
    let mut bytes = [0; RECORD_LENGTH];
    for (place, word) in bytes.chunks_exact_mut(4).zip([before, after.pc, after.psw, sum]) {
        place.copy_from_slice(&word.to_le_bytes());
    }
    bytes
}

impl Machine {
    /// Steps this machine along a trace, as far as they agree.
    pub fn replay(&mut self, memories: &mut Memories, trace: &[u8]) -> Result<Replayed, Refusal> {
        let done = vbsys::replay(memories, (&self.processor).into(), (&self.drawing).into(), trace);
        match done.refusal {
            0 | 6 => {
                self.processor = (&done.processor).into();
                self.drawing = (&done.drawing).into();
            }
            14 => return Err(Refusal::TraceLength { given: trace.len() }),
            number => return Err(self.refusal(memories, number)),
        }
        let end = match done.answer {
            vbsys::REPLAY_REFUSED => End::NotModelled(self.refusal(memories, 6)),
            vbsys::REPLAY_AGREED => End::Agreed,
            vbsys::REPLAY_DIFFERED => End::Differed(Word::of(done.word)),
            vbsys::REPLAY_WAS_HALTED => End::WasHalted,
            vbsys::REPLAY_WAS_FATAL => End::WasFatal,
            vbsys::REPLAY_TURNED_FATAL => End::TurnedFatal,
            answer => unreachable!("vb.h names no answer {answer} of a replay"),
        };
        Ok(Replayed { agreed: done.agreed, end })
    }
}

impl Word {
    fn of(number: u32) -> Word {
        match number {
            0 => Word::PcBefore,
            1 => Word::PcAfter,
            2 => Word::PswAfter,
            3 => Word::Sum,
            _ => unreachable!("a record has no word {number}"),
        }
    }
}
