//! What the processor holds and works with, as words whose bits a fault can hold fast.

use vb::op;
use vbsys::Processor;

use super::die::{Did, Next};

/// A value of 32 bits that the processor holds or works with.
#[derive(Clone, Copy, Debug, PartialEq, Eq)]
pub enum Quantity {
    /// A register or other storage, after each step and event.
    Cell(Cell),
    /// Where bit n of a general register differs from bit n + 1.
    Neighbours(u32),
    /// What an operation writes into reg2 (JAL: r31; CMP: the difference).
    Result(u32),
    /// What it writes into r30.
    Second(u32),
    /// PSW after an operation, and which of its bits changed.
    Flags(u32),
    FlagsChanged(u32),
    /// Bit n is condition n of Bcond (0) or SETF (1): whether it held.
    Held(u32),
    Address(Access),
    Field(Field),
    /// The operands reg1 (1) and reg2 (2).
    Port(u32),
    /// The carries into each bit of an addition or subtraction.
    Carry,
    /// The word on the data lines.
    Data(Access),
    /// PC after a jump that an operation made.
    Target(u32),
    /// Bit n is set where the n-th cause of the list was entered, or an event came.
    Entered,
}

/// What holds bits from one step to the next.
#[derive(Clone, Copy, Debug, PartialEq, Eq)]
pub enum Cell {
    Register(u32),
    Pc,
    Eipc,
    Eipsw,
    Fepc,
    Fepsw,
    Ecr,
    Psw,
    Sr25,
    Sr29,
    Sr31,
    Count,
    Reload,
    Control,
    Lines,
}

#[derive(Clone, Copy, Debug, PartialEq, Eq)]
pub enum Access {
    Fetch,
    Load,
    Store,
}

#[derive(Clone, Copy, Debug, PartialEq, Eq)]
pub enum Field {
    Reg1,
    Reg2,
    Imm5,
    Opcode,
    Cond,
    Disp9,
    Imm16,
    Disp16,
    Disp26,
    Subop,
}

/// Bits of `Quantity::Entered` after those of the causes.
pub const TICKED: u8 = 20;
pub const LINE_CHANGED: u8 = 21;
/// The bit of an exception that came while another was in work.
pub const DUPLEXED: u8 = 13;
pub const TURNED_FATAL: u8 = 14;

const OPS: usize = 80;
const CELLS: usize = 46;
pub const ALL: usize = CELLS + 32 + 5 * OPS + 2 + 3 + 10 + 2 + 1 + 3 + 1;

impl Quantity {
    pub fn index(self) -> usize {
        let ops = CELLS + 32;
        let rest = ops + 5 * OPS;
        let op = |n: u32| (n as usize).min(OPS - 1);
        match self {
            Quantity::Cell(cell) => cell.index(),
            Quantity::Neighbours(register) => CELLS + register as usize,
            Quantity::Result(n) => ops + op(n),
            Quantity::Second(n) => ops + OPS + op(n),
            Quantity::Flags(n) => ops + 2 * OPS + op(n),
            Quantity::FlagsChanged(n) => ops + 3 * OPS + op(n),
            Quantity::Target(n) => ops + 4 * OPS + op(n),
            Quantity::Held(n) => rest + n as usize,
            Quantity::Address(access) => rest + 2 + access as usize,
            Quantity::Field(field) => rest + 5 + field as usize,
            Quantity::Port(n) => rest + 14 + n as usize,
            Quantity::Carry => rest + 17,
            Quantity::Data(access) => rest + 18 + access as usize,
            Quantity::Entered => rest + 21,
        }
    }
}

impl Cell {
    fn index(self) -> usize {
        match self {
            Cell::Register(n) => n as usize,
            Cell::Pc => 32,
            Cell::Eipc => 33,
            Cell::Eipsw => 34,
            Cell::Fepc => 35,
            Cell::Fepsw => 36,
            Cell::Ecr => 37,
            Cell::Psw => 38,
            Cell::Sr25 => 39,
            Cell::Sr29 => 40,
            Cell::Sr31 => 41,
            Cell::Count => 42,
            Cell::Reload => 43,
            Cell::Control => 44,
            Cell::Lines => 45,
        }
    }

    pub fn of(self, processor: &Processor) -> u32 {
        let hardware = &processor.hardware;
        match self {
            Cell::Register(n) => processor.regs[n as usize],
            Cell::Pc => processor.pc,
            Cell::Eipc => processor.eipc,
            Cell::Eipsw => processor.eipsw,
            Cell::Fepc => processor.fepc,
            Cell::Fepsw => processor.fepsw,
            Cell::Ecr => processor.ecr,
            Cell::Psw => processor.psw,
            Cell::Sr25 => processor.sr25,
            Cell::Sr29 => processor.sr29,
            Cell::Sr31 => processor.sr31,
            Cell::Count => hardware.count.into(),
            Cell::Reload => hardware.reload.into(),
            Cell::Control => hardware.control.into(),
            Cell::Lines => hardware.lines.into(),
        }
    }
}

/// PC and the system registers.
pub const SYSTEM: [Cell; 8] = [
    Cell::Eipc,
    Cell::Eipsw,
    Cell::Fepc,
    Cell::Fepsw,
    Cell::Ecr,
    Cell::Sr25,
    Cell::Sr29,
    Cell::Sr31,
];
pub const HARDWARE: [Cell; 4] = [Cell::Count, Cell::Reload, Cell::Control, Cell::Lines];

pub const FIELDS: [Field; 10] = [
    Field::Reg1,
    Field::Reg2,
    Field::Imm5,
    Field::Opcode,
    Field::Cond,
    Field::Disp9,
    Field::Imm16,
    Field::Disp16,
    Field::Disp26,
    Field::Subop,
];

impl Field {
    /// The field's value in an instruction, and its bits; none where the instruction has no such field.
    pub fn of(self, next: &Next) -> Option<(u32, u32)> {
        let (first, second, op) = (u32::from(next.first), u32::from(next.second), next.op());
        let opcode = first >> 10;
        let is = |low: u32, high: u32| (low..=high).contains(&opcode);
        let branch = is(0b100000, 0b100111);
        let long = opcode == op::JR || opcode == op::JAL;
        let has = match self {
            Field::Reg1 => is(0, 15) || (opcode >= 40 && !long),
            Field::Reg2 => !branch && !long && opcode != op::JMP,
            Field::Imm5 => is(16, 31) && !matches!(op, op::CLI | op::RETI | op::HALT | op::SEI),
            Field::Opcode => true,
            Field::Cond | Field::Disp9 => branch,
            Field::Imm16 => is(40, 47) && !long,
            Field::Disp16 => opcode >= 48 && opcode != 62 && next.halfwords == 2,
            Field::Disp26 => long,
            Field::Subop => opcode == 62,
        };
        let (value, bits) = match self {
            Field::Reg1 | Field::Imm5 => (first & 31, 31),
            Field::Reg2 => (first >> 5 & 31, 31),
            Field::Opcode => (opcode, 63),
            Field::Cond => (first >> 9 & 15, 15),
            Field::Disp9 => (first & 0x1FE, 0x1FE),
            Field::Imm16 | Field::Disp16 => (second, 0xFFFF),
            Field::Disp26 => ((first & 0x3FF) << 16 | second & 0xFFFE, 0x03FF_FFFE),
            Field::Subop => (second >> 10, 63),
        };
        has.then_some((value, bits))
    }

    /// The halfwords of an instruction with another value in the field.
    pub fn with(self, next: &Next, value: u32) -> (u16, u16) {
        let (first, second) = (u32::from(next.first), u32::from(next.second));
        let (first, second) = match self {
            Field::Reg1 | Field::Imm5 => (first & !31 | value, second),
            Field::Reg2 => (first & !(31 << 5) | value << 5, second),
            Field::Opcode => (first & 0x3FF | value << 10, second),
            Field::Cond => (first & !(15 << 9) | value << 9, second),
            Field::Disp9 => (first & !0x1FE | value, second),
            Field::Imm16 | Field::Disp16 => (first, value),
            Field::Disp26 => (first & !0x3FF | value >> 16, second & 1 | value & 0xFFFE),
            Field::Subop => (first, second & 0x3FF | value << 10),
        };
        (first as u16, second as u16)
    }
}

/// The operands of an addition or subtraction in the adder, and whether it subtracts.
pub fn added(before: &Processor, next: &Next) -> Option<(u32, u32, bool)> {
    let instruction = &next.instruction;
    let [reg1, reg2] = [instruction.reg1, instruction.reg2].map(|n| before.regs[n as usize]);
    Some(match next.op() {
        op::ADD => (reg2, reg1, false),
        op::ADD_IMM => (reg2, instruction.immediate, false),
        op::ADDI => (reg1, instruction.immediate, false),
        op::SUB | op::CMP => (reg2, reg1, true),
        op::CMP_IMM => (reg2, instruction.immediate, true),
        _ => return None,
    })
}

/// Bit n is the carry into bit n of the adder, which subtracts by adding the complement and 1.
pub fn carries(left: u32, right: u32, subtracts: bool) -> u32 {
    let right = if subtracts { !right } else { right };
    let sum = left.wrapping_add(right).wrapping_add(u32::from(subtracts));
    left ^ right ^ sum
}

/// Whether one of the sixteen conditions holds.
pub fn holds(condition: u32, psw: u32) -> bool {
    let [z, s, ov, cy] = [0, 1, 2, 3].map(|bit| psw >> bit & 1 == 1);
    let plain = match condition & 7 {
        0 => ov,
        1 => cy,
        2 => z,
        3 => cy || z,
        4 => s,
        5 => true,
        6 => ov != s,
        _ => ov != s || z,
    };
    plain != (condition >= 8)
}

/// The bit of `Quantity::Entered` for what a step entered.
pub fn entered(did: Did, before: &Processor) -> u32 {
    1 << match did {
        Did::Fatal => TURNED_FATAL,
        Did::Trapped(_) if before.psw & 0x4000 != 0 => DUPLEXED,
        Did::Trapped(code) => cause(code),
        Did::Interrupted(level) => 8 + level as u8,
        _ => return 0,
    }
}

/// The number of an exception's cause, in the order of the list.
pub fn cause(code: u32) -> u8 {
    match code {
        0xFF80 => 0,
        0xFF90 => 1,
        0xFFA0..=0xFFAF => 2,
        0xFFB0..=0xFFBF => 3,
        0xFF60 => 4,
        0xFF64 => 5,
        0xFF68 => 6,
        _ => 7,
    }
}
