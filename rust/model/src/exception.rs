//! Exceptions: 000 "Exception Processing" and "List of Exceptions"; 01
//! "Exceptions"; interrupts by W6.

use crate::arithmetic::{AE, EP, I, ID, NP};
use crate::floating::{Trap, FIV, FOV, FRO, FZD};
use crate::hardware::LEVELS;
use crate::processor::{Mode, Processor, StepAnswer};

/// Why an exception is raised.
#[derive(Clone, Copy, Debug, PartialEq, Eq)]
pub enum Cause {
    ZeroDivision,
    IllegalOpcode,
    /// TRAP with its vector, 0 to 31.
    Trap(u8),
    Floating(Trap),
}

impl Cause {
    /// The exception's code.
    pub fn code(self) -> u32 {
        match self {
            Cause::ZeroDivision => 0xFF80,
            Cause::IllegalOpcode => 0xFF90,
            Cause::Trap(vector) => 0xFFA0 + u32::from(vector),
            Cause::Floating(Trap::ReservedOperand) => 0xFF60,
            Cause::Floating(Trap::Overflow) => 0xFF64,
            Cause::Floating(Trap::ZeroDivision) => 0xFF68,
            Cause::Floating(Trap::InvalidOperation) => 0xFF70,
        }
    }

    /// 000 "List of Exceptions": the address of a regular exception's handler.
    pub fn handler(self) -> u32 {
        match self {
            Cause::ZeroDivision => 0xFFFF_FF80,
            Cause::IllegalOpcode => 0xFFFF_FF90,
            Cause::Trap(vector) if vector < 16 => 0xFFFF_FFA0,
            Cause::Trap(_) => 0xFFFF_FFB0,
            Cause::Floating(_) => 0xFFFF_FF60,
        }
    }

    /// "restore PC that of the instruction; TRAP ... the next".
    pub fn restore_pc(self, pc: u32) -> u32 {
        match self {
            Cause::ZeroDivision | Cause::IllegalOpcode | Cause::Floating(_) => pc,
            Cause::Trap(_) => pc.wrapping_add(2),
        }
    }

    /// W4: a trap "sets its flag alone before PSW is saved"; other causes set
    /// none.
    pub fn flag(self) -> u32 {
        match self {
            Cause::Floating(Trap::ReservedOperand) => FRO,
            Cause::Floating(Trap::InvalidOperation) => FIV,
            Cause::Floating(Trap::ZeroDivision) => FZD,
            Cause::Floating(Trap::Overflow) => FOV,
            Cause::ZeroDivision | Cause::IllegalOpcode | Cause::Trap(_) => 0,
        }
    }
}

/// Enters an exception by the state of NP and EP (01 "Exceptions").
pub(crate) fn raise(processor: &mut Processor, cause: Cause) -> StepAnswer {
    if processor.psw & NP != 0 {
        processor.mode = Mode::Fatal;
        return StepAnswer::TurnedFatal(cause);
    }
    let psw = processor.psw | cause.flag();
    let restore_pc = cause.restore_pc(processor.pc);
    if psw & EP != 0 {
        processor.ecr = processor.ecr & 0x0000_FFFF | cause.code() << 16;
        processor.fepsw = psw;
        processor.fepc = restore_pc;
        processor.psw = psw | NP;
        processor.pc = 0xFFFF_FFD0;
    } else {
        processor.ecr = processor.ecr & 0xFFFF_0000 | cause.code();
        processor.eipsw = psw;
        processor.eipc = restore_pc;
        processor.psw = psw | EP;
        processor.pc = cause.handler();
    }
    processor.psw = (processor.psw | ID) & !AE;
    StepAnswer::Trapped(cause)
}

/// W6: "codes are 0xFE00 plus 16 times the level".
pub fn interrupt_code(level: u32) -> u32 {
    0xFE00 + 16 * level
}

/// "handlers as in the Scroll".
pub fn interrupt_handler(level: u32) -> u32 {
    0xFFFF_FE00 + 16 * level
}

/// The level of the interrupt that is accepted: "Running or halted, an interrupt
/// is accepted exactly if some raised line's level is at least I while NP, EP and
/// ID are all clear; the highest such level wins."
pub fn accepted_level(processor: &Processor) -> Option<u32> {
    let masked = processor.psw & (NP | EP | ID) != 0;
    if processor.mode == Mode::Fatal || masked {
        return None;
    }
    let least = (processor.psw & I) >> 16;
    (0..LEVELS).filter(|&level| level >= least && processor.hardware.is_raised(level)).max()
}

/// "It enters as document 01's exceptions do with NP and EP clear, and sets I to
/// level + 1; a halted machine wakes". The restore PC is the record's PC: HALT has
/// moved it past itself. Lines stay as they are.
pub(crate) fn interrupt(processor: &mut Processor, level: u32) -> StepAnswer {
    processor.ecr = processor.ecr & 0xFFFF_0000 | interrupt_code(level);
    processor.eipsw = processor.psw;
    processor.eipc = processor.pc;
    processor.psw = processor.psw & !(I | AE) | (level + 1) << 16 | EP | ID;
    processor.pc = interrupt_handler(level);
    processor.mode = Mode::Running;
    StepAnswer::Interrupted(level)
}
