//! Instructions, what they compute with, flags and conditions.

use vb::{op, Instruction, Processor};

use super::table::{names, numbers, Axis, Table};
use super::Step;
use crate::programs::mnemonics::{all, of};

/// Z, S, OV, CY as PSW has them.
const FLAGS: [&str; 4] = ["Z", "S", "OV", "CY"];

const TWO_OPERANDS: [u32; 10] =
    [op::ADD, op::SUB, op::CMP, op::MUL, op::MULU, op::DIV, op::DIVU, op::OR, op::AND, op::XOR];
const SHORT: [u32; 2] = [op::ADD_IMM, op::CMP_IMM];
const LONG: [u32; 6] = [op::MOVEA, op::ADDI, op::ORI, op::ANDI, op::XORI, op::MOVHI];
const FLOATS: [u32; 5] = [op::CMPF_S, op::ADDF_S, op::SUBF_S, op::MULF_S, op::DIVF_S];
const SHIFTS: [u32; 6] = [op::SHL, op::SHR, op::SAR, op::SHL_IMM, op::SHR_IMM, op::SAR_IMM];
/// Instructions with one operand: of reg1, or of reg2 for XB and XH.
const ONE_OPERAND: [u32; 6] = [op::MOV, op::NOT, op::CVT_WS, op::REV, op::XB, op::XH];
const FLOAT_OPERAND: [u32; 2] = [op::CVT_SW, op::TRNC_SW];

/// Instructions that set flags, and which they can set: Z, S, OV, CY; a flag that is always clear has its value 0 alone.
const SETTERS: [(u32, [Set; 4]); 31] = {
    use Set::{Both as B, Clear as C, Kept as K};
    [
        (op::ADD, [B, B, B, B]),
        (op::SUB, [B, B, B, B]),
        (op::CMP, [B, B, B, B]),
        (op::ADD_IMM, [B, B, B, B]),
        (op::CMP_IMM, [B, B, B, B]),
        (op::ADDI, [B, B, B, B]),
        (op::MUL, [B, B, B, K]),
        (op::MULU, [B, B, B, K]),
        (op::DIV, [B, B, B, K]),
        (op::DIVU, [B, B, C, K]),
        (op::OR, [B, B, C, K]),
        (op::AND, [B, B, C, K]),
        (op::XOR, [B, B, C, K]),
        (op::NOT, [B, B, C, K]),
        (op::ORI, [B, B, C, K]),
        (op::ANDI, [B, C, C, K]),
        (op::XORI, [B, B, C, K]),
        (op::SHL, [B, B, C, B]),
        (op::SHR, [B, B, C, B]),
        (op::SAR, [B, B, C, B]),
        (op::SHL_IMM, [B, B, C, B]),
        (op::SHR_IMM, [B, B, C, B]),
        (op::SAR_IMM, [B, B, C, B]),
        (op::CMPF_S, [B, B, C, B]),
        (op::ADDF_S, [B, B, C, B]),
        (op::SUBF_S, [B, B, C, B]),
        (op::MULF_S, [B, B, C, B]),
        (op::DIVF_S, [B, B, C, B]),
        (op::CVT_WS, [B, B, C, B]),
        (op::CVT_SW, [B, B, C, K]),
        (op::TRNC_SW, [B, B, C, K]),
    ]
};

#[derive(Clone, Copy, PartialEq, Eq)]
enum Set {
    Both,
    Clear,
    Kept,
}

/// A word as an operand: 0, 1, -1, the largest, the smallest, or another.
fn class(word: u32) -> usize {
    match word {
        0 => 0,
        1 => 1,
        0xFFFF_FFFF => 2,
        0x7FFF_FFFF => 3,
        0x8000_0000 => 4,
        2..=0x7FFF_FFFE => 5,
        _ => 6,
    }
}

fn classes(of: &str) -> Axis {
    let all = ["0", "1", "-1", "0x7FFFFFFF", "0x80000000", "another positive", "another negative"];
    all.iter().map(|class| format!("{of} {class}")).collect()
}

/// An immediate of 16 bits, extended to a word.
fn long_class(word: u32) -> usize {
    match word as u16 {
        0 => 0,
        1 => 1,
        0xFFFF => 2,
        0x7FFF => 3,
        0x8000 => 4,
        2..=0x7FFE => 5,
        _ => 6,
    }
}

fn long_classes() -> Axis {
    names(&["0", "1", "0xFFFF", "0x7FFF", "0x8000", "below 0x7FFF", "above 0x8000"])
}

/// An immediate of five bits, extended to a word.
fn short_class(word: u32) -> usize {
    match word as i32 {
        0 => 0,
        1 => 1,
        -1 => 2,
        15 => 3,
        -16 => 4,
        value => 5 + usize::from(value < 0),
    }
}

fn short_classes() -> Axis {
    names(&["0", "1", "-1", "15", "-16", "another positive", "another negative"])
}

/// A float as an operand.
fn float_class(word: u32) -> usize {
    match (word >> 31, word >> 23 & 0xFF, word & 0x7F_FFFF) {
        (0, 0, 0) => 0,
        (_, 0, 0) => 1,
        (_, 0, _) => 4,
        (_, 0xFF, 0) => 5,
        (_, 0xFF, _) => 6,
        (sign, ..) => 2 + sign as usize,
    }
}

fn float_classes(of: &str) -> Axis {
    let all = ["+0", "-0", "positive", "negative", "denormal", "infinity", "not a number"];
    all.iter().map(|class| format!("{of} {class}")).collect()
}

fn mnemonics(operations: &[u32]) -> Axis {
    operations.iter().map(|&operation| called(operation)).collect()
}

/// A mnemonic; that of an immediate form is told apart.
pub fn called(operation: u32) -> String {
    match operation {
        op::BCOND => "Bcond".to_string(),
        op::MOV_IMM | op::ADD_IMM | op::CMP_IMM | op::SHL_IMM | op::SHR_IMM | op::SAR_IMM => {
            format!("{} immediate", of(operation).0)
        }
        _ => of(operation).0.to_string(),
    }
}

pub struct Operands {
    executed: Table,
    two: Table,
    short: Table,
    long: Table,
    floats: Table,
    shifts: Table,
    one: Table,
    one_float: Table,
    flags: Table,
    taken: Table,
    by_flags: Table,
    registers: Table,
    /// Bits that a register held: 0, then 1.
    held: [[u32; 32]; 2],
    bits: Table,
    operations: Vec<u32>,
}

impl Operands {
    pub fn new() -> Operands {
        let mut operations: Vec<u32> = all().chain([op::BCOND]).collect();
        operations.sort_unstable();
        let flag_axis = FLAGS.iter().flat_map(|flag| [format!("{flag} 0"), format!("{flag} 1")]);
        let impossible = |place: &[usize]| match SETTERS[place[0]].1[place[1] / 2] {
            Set::Both => false,
            Set::Clear => place[1] % 2 == 1,
            Set::Kept => true,
        };
        let setters: Vec<u32> = SETTERS.iter().map(|(operation, _)| *operation).collect();
        let users = names(&["Bcond", "SETF"]);
        let outcome = names(&["true", "false"]);
        let conditions = || numbers("condition ", 16);
        let flag_states = (0..16).map(|flags: u32| format!("CY OV S Z {flags:04b}")).collect();
        let bit_values = (0..32).flat_map(|n| [format!("bit {n} is 0"), format!("bit {n} is 1")]);
        let table = Table::new;
        let amounts = numbers("by ", 32).into_iter().chain(["by 32 or more".to_string()]);
        Operands {
            executed: table("instructions", vec![mnemonics(&operations)]),
            two: table(
                "integer operands",
                vec![mnemonics(&TWO_OPERANDS), classes("reg1"), classes("reg2")],
            ),
            short: table(
                "immediates of 5 bits",
                vec![mnemonics(&SHORT), short_classes(), classes("reg2")],
            ),
            long: table(
                "immediates of 16 bits",
                vec![mnemonics(&LONG), long_classes(), classes("reg1")],
            ),
            floats: table(
                "float operands",
                vec![mnemonics(&FLOATS), float_classes("reg1"), float_classes("reg2")],
            ),
            shifts: table("shift amounts", vec![mnemonics(&SHIFTS), amounts.collect()])
                .without(|place| place[0] >= 3 && place[1] == 32),
            one: table("single operands", vec![mnemonics(&ONE_OPERAND), classes("operand")]),
            one_float: table(
                "single float operands",
                vec![mnemonics(&FLOAT_OPERAND), float_classes("operand")],
            ),
            flags: table("flags", vec![mnemonics(&setters), flag_axis.collect()])
                .without(impossible),
            // BR and NOP have one outcome
            taken: table("conditions", vec![users.clone(), conditions(), outcome])
                .without(|place| place[1..] == [5, 1] || place[1..] == [13, 0]),
            by_flags: table("conditions by flags", vec![users, conditions(), flag_states]),
            registers: table(
                "registers",
                vec![names(&["read as reg1", "read as reg2", "written"]), numbers("r", 32)],
            )
            .without(|place| place == [2, 0]),
            held: [[0; 32]; 2],
            bits: table("register bits", vec![numbers("r", 32), bit_values.collect()])
                .without(|place| place[0] == 0),
            operations,
        }
    }

    pub fn step(&mut self, step: &Step) {
        let Some(instruction) = &step.instruction else { return };
        let operation = instruction.operation;
        if let Ok(n) = self.operations.binary_search(&operation) {
            self.executed.mark(&[n]);
        }
        let [one, two] =
            [instruction.reg1, instruction.reg2].map(|r| step.before.regs[r as usize & 31]);
        self.operands(instruction, one, two);
        self.flags(instruction, step.after);
        self.conditions(instruction, step.before);
        self.registers.mark(&[0, instruction.reg1 as usize & 31]);
        self.registers.mark(&[1, instruction.reg2 as usize & 31]);
        let (before, after) = (&step.before.regs, &step.after.regs);
        for n in [instruction.reg2 as usize & 31, 30, 31] {
            if before[n] != after[n] {
                self.registers.mark(&[2, n]);
            }
            self.held[0][n] |= !after[n];
            self.held[1][n] |= after[n];
        }
    }

    fn operands(&mut self, instruction: &Instruction, one: u32, two: u32) {
        let (operation, immediate) = (instruction.operation, instruction.immediate);
        let at = |of: &[u32]| of.iter().position(|&each| each == operation);
        if let Some(n) = at(&TWO_OPERANDS) {
            self.two.mark(&[n, class(one), class(two)]);
        } else if let Some(n) = at(&SHIFTS) {
            let amount = if n < 3 { one } else { immediate };
            self.shifts.mark(&[n, amount.min(32) as usize]);
        } else if let Some(n) = at(&LONG) {
            self.long.mark(&[n, long_class(immediate), class(one)]);
        } else if let Some(n) = at(&SHORT) {
            self.short.mark(&[n, short_class(immediate), class(two)]);
        } else if let Some(n) = at(&ONE_OPERAND) {
            self.one.mark(&[n, class(if n < 4 { one } else { two })]);
        } else if let Some(n) = at(&FLOATS) {
            self.floats.mark(&[n, float_class(one), float_class(two)]);
        } else if let Some(n) = at(&FLOAT_OPERAND) {
            self.one_float.mark(&[n, float_class(one)]);
        }
    }

    fn flags(&mut self, instruction: &Instruction, after: &Processor) {
        let setter = SETTERS.iter().position(|(operation, _)| *operation == instruction.operation);
        if let Some(n) = setter {
            for flag in 0..4 {
                self.flags.mark(&[n, 2 * flag + (after.psw >> flag & 1) as usize]);
            }
        }
    }

    fn conditions(&mut self, instruction: &Instruction, before: &Processor) {
        let (user, condition) = match instruction.operation {
            op::BCOND => (0, instruction.condition),
            op::SETF => (1, instruction.immediate & 15),
            _ => return,
        };
        let [z, s, ov, cy] = [0, 1, 2, 3].map(|flag| before.psw >> flag & 1 == 1);
        let holds = match condition & 7 {
            0 => ov,
            1 => cy,
            2 => z,
            3 => cy || z,
            4 => s,
            5 => true,
            6 => s != ov,
            _ => (s != ov) || z,
        };
        let holds = holds != (condition >= 8);
        self.taken.mark(&[user, condition as usize, usize::from(!holds)]);
        self.by_flags.mark(&[user, condition as usize, before.psw as usize & 15]);
    }

    pub fn tables(&self) -> Vec<Table> {
        let mut bits = self.bits.clone();
        for (register, bit) in (1..32).flat_map(|r| (0..32).map(move |bit| (r, bit))) {
            for value in 0..2 {
                if self.held[value][register] >> bit & 1 == 1 {
                    bits.mark(&[register, 2 * bit + value]);
                }
            }
        }
        let all = [
            &self.executed,
            &self.two,
            &self.short,
            &self.long,
            &self.floats,
            &self.shifts,
            &self.one,
            &self.one_float,
            &self.flags,
            &self.taken,
            &self.by_flags,
            &self.registers,
        ];
        all.into_iter().cloned().chain([bits]).collect()
    }
}
