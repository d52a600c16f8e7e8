//! Storage whose bits are stuck or coupled: registers, PSW, PC, system registers, timer, lines; and the state of a reset.

use vb::op;
use vbsys::Processor;

use super::super::die::{writes_reg2, Did, Die};
use super::super::quantities::{Cell, Quantity};
use super::super::watch::Trigger;
use super::{forced, Inject};

#[derive(Clone, Debug, PartialEq)]
pub enum Effect {
    Stuck {
        cell: Cell,
        bit: u8,
        value: bool,
    },
    /// Bits n and n + 1 of a register are joined: both are their AND, or their OR.
    Bridge {
        register: u32,
        bit: u8,
        or: bool,
    },
    /// A write to a register goes to another one, or to another one too.
    WriteDecoder {
        register: u32,
        other: u32,
        also: bool,
    },
    /// The carry of PC's increment into a bit is lost.
    PcCarry {
        bit: u8,
    },
    Reset(Reset),
}

#[derive(Clone, Copy, Debug, PartialEq)]
pub enum Reset {
    NpClear,
    EcrZero,
    PcLower,
}

impl Inject for Effect {
    fn trigger(&self) -> Trigger {
        match *self {
            // system register 31 holds no more than 0x80000000: its bits are forced where it is read
            Effect::Stuck { cell: Cell::Sr31, .. } => Trigger::Op(op::STSR),
            Effect::Stuck { cell, bit, value } => Trigger::Bit(Quantity::Cell(cell), bit, !value),
            Effect::Bridge { register, bit, .. } => {
                Trigger::Bit(Quantity::Neighbours(register), bit, true)
            }
            Effect::WriteDecoder { .. } | Effect::PcCarry { .. } | Effect::Reset(_) => {
                Trigger::Start
            }
        }
    }

    fn step(&self, die: &mut Die) -> Did {
        match *self {
            Effect::Stuck { cell: Cell::Sr31, bit, value } => read_sr31(die, bit, value),
            Effect::WriteDecoder { register, other, also } => {
                write_elsewhere(die, register, other, also)
            }
            Effect::PcCarry { bit } => increment(die, bit),
            _ => die.step(),
        }
    }

    fn wakes(&self) -> bool {
        let hardware = [Cell::Count, Cell::Reload, Cell::Control, Cell::Lines, Cell::Psw];
        matches!(self, Effect::Stuck { cell, .. } if hardware.contains(cell))
    }

    fn settle(&self, die: &mut Die) {
        match *self {
            Effect::Stuck { cell, bit, value } if cell != Cell::Sr31 => {
                stick(die, cell, bit, value)
            }
            Effect::Bridge { register, bit, or } => {
                let word = die.state.processor.regs[register as usize];
                let (low, high) = (word >> bit & 1, word >> (bit + 1) & 1);
                let joined = if or { low | high } else { low & high } == 1;
                die.put(register, forced(forced(word, bit, joined), bit + 1, joined));
            }
            _ => {}
        }
    }

    fn reset(&self, die: &mut Die) {
        let Effect::Reset(reset) = self else { return };
        let processor = &mut die.state.processor;
        match reset {
            Reset::NpClear => processor.psw &= !0x8000,
            Reset::EcrZero => processor.ecr = 0,
            Reset::PcLower => processor.pc = 0xFFFF_FFE0,
        }
        die.acted = true;
    }
}

fn stick(die: &mut Die, cell: Cell, bit: u8, value: bool) {
    let processor = &mut die.state.processor;
    let before = cell.of(processor);
    let after = forced(before, bit, value);
    if before != after {
        set(processor, cell, after);
        die.acted = true;
    }
}

fn set(processor: &mut Processor, cell: Cell, value: u32) {
    let hardware = &mut processor.hardware;
    match cell {
        Cell::Register(n) => processor.regs[n as usize] = value,
        Cell::Pc => processor.pc = value,
        Cell::Eipc => processor.eipc = value,
        Cell::Eipsw => processor.eipsw = value,
        Cell::Fepc => processor.fepc = value,
        Cell::Fepsw => processor.fepsw = value,
        Cell::Ecr => processor.ecr = value,
        Cell::Psw => processor.psw = value,
        Cell::Sr25 => processor.sr25 = value,
        Cell::Sr29 => processor.sr29 = value,
        Cell::Sr31 => processor.sr31 = value,
        Cell::Count => hardware.count = value as u16,
        Cell::Reload => hardware.reload = value as u16,
        Cell::Control => hardware.control = value as u16,
        Cell::Lines => hardware.lines = value as u16,
    }
}

fn read_sr31(die: &mut Die, bit: u8, value: bool) -> Did {
    let next = die.at_pc();
    let did = die.step();
    if did == Did::Ended && next.op() == op::STSR && next.instruction.immediate == 31 {
        let read = die.state.processor.regs[next.instruction.reg2 as usize];
        die.put(next.instruction.reg2, forced(read, bit, value));
    }
    did
}

fn write_elsewhere(die: &mut Die, register: u32, other: u32, also: bool) -> Did {
    let (next, before) = (die.at_pc(), die.state.processor.regs);
    let did = die.step();
    let after = die.state.processor.regs[register as usize];
    let op = next.op();
    let written = match register {
        _ if did != Did::Ended => false,
        _ if writes_reg2(op) && next.instruction.reg2 == register => true,
        30 => matches!(op, op::MUL | op::DIV | op::MULU | op::DIVU),
        31 => op == op::JAL,
        _ => false,
    };
    if written {
        die.put(other, after);
        if !also {
            die.put(register, before[register as usize]);
        }
    }
    did
}

/// PC after an instruction that is no jump, its increment without the carry into a bit.
fn increment(die: &mut Die, bit: u8) -> Did {
    let (next, pc) = (die.at_pc(), die.state.processor.pc);
    let did = die.step();
    let length = 2 * next.halfwords;
    let after = pc.wrapping_add(length);
    if did == Did::Ended && die.state.processor.pc == after && (pc ^ length ^ after) >> bit & 1 == 1
    {
        let low = (1u32 << bit) - 1;
        die.state.processor.pc = pc & !low | after & low;
        die.acted = true;
    }
    did
}
