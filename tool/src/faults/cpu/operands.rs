//! What goes into an operation: fields of the instruction, read ports, register numbers, exchanged operands, extensions.

use vb::op;

use super::super::die::{decoded, reads, Did, Die, Next};
use super::super::quantities::{Access, Field, Quantity};
use super::super::watch::Trigger;
use super::{forced, Inject};

#[derive(Clone, Debug, PartialEq)]
pub enum Effect {
    Field {
        field: Field,
        bit: u8,
        value: bool,
    },
    /// The operand reg1 (1) or reg2 (2).
    Port {
        port: u32,
        bit: u8,
        value: bool,
    },
    /// A read of one register gives another one.
    ReadDecoder {
        register: u32,
        other: u32,
    },
    /// reg1 and reg2 are exchanged before the operation.
    Swapped {
        op: u32,
    },
    Extension(Extension),
    /// The data lines of a fetch.
    Fetched {
        bit: u8,
        value: bool,
    },
    /// A bit of a fetch address.
    FetchAddress {
        bit: u8,
        value: bool,
    },
    /// Bit 4 of TRAP's vector is lost.
    TrapVector,
}

/// An immediate or displacement that is extended wrongly.
#[derive(Clone, Copy, Debug, PartialEq)]
pub enum Extension {
    /// The five bits of MOV, ADD or CMP with zeros.
    Imm5(u32),
    /// The sixteen bits of these operations with zeros (MOVEA, ADDI, loads, stores).
    Imm16(&'static [u32]),
    /// ORI, ANDI or XORI with the sign.
    Signed16(u32),
    Disp9,
    /// JR or JAL.
    Disp26(u32),
}

pub const LOADS: &[u32] = &[op::LD_B, op::LD_H, op::LD_W, op::IN_B, op::IN_H, op::IN_W];
pub const STORES: &[u32] = &[op::ST_B, op::ST_H, op::ST_W, op::OUT_B, op::OUT_H, op::OUT_W];

impl Inject for Effect {
    fn trigger(&self) -> Trigger {
        match *self {
            Effect::Field { field, bit, value } => {
                Trigger::Bit(Quantity::Field(field), bit, !value)
            }
            Effect::Port { port, bit, value } => Trigger::Bit(Quantity::Port(port), bit, !value),
            Effect::ReadDecoder { .. } => Trigger::Start,
            Effect::Swapped { op } => Trigger::Op(op),
            Effect::Extension(extension) => match extension {
                Extension::Imm5(op) | Extension::Signed16(op) | Extension::Disp26(op) => {
                    Trigger::Op(op)
                }
                Extension::Imm16(ops) => Trigger::Ops(ops),
                Extension::Disp9 => Trigger::Op(op::BCOND),
            },
            Effect::Fetched { bit, value } => {
                Trigger::Bit(Quantity::Data(Access::Fetch), bit, !value)
            }
            Effect::FetchAddress { bit, value } => {
                Trigger::Bit(Quantity::Address(Access::Fetch), bit, !value)
            }
            Effect::TrapVector => Trigger::Op(op::TRAP),
        }
    }

    fn step(&self, die: &mut Die) -> Did {
        if !die.runs() {
            return die.step();
        }
        let next = die.at_pc();
        match *self {
            Effect::Field { field, bit, value } => with_field(die, &next, field, bit, value),
            Effect::TrapVector if next.op() == op::TRAP => {
                with_field(die, &next, Field::Imm5, 4, false)
            }
            Effect::Port { port, bit, value } => {
                through(
                    die,
                    &next,
                    |number, _, word| {
                        if number == port {
                            forced(word, bit, value)
                        } else {
                            word
                        }
                    },
                )
            }
            Effect::ReadDecoder { register, other } => {
                let instead = die.state.processor.regs[other as usize];
                through(die, &next, |_, read, word| if read == register { instead } else { word })
            }
            Effect::Swapped { op } if next.op() == op => {
                let regs = &die.state.processor.regs;
                let [one, two] =
                    [next.instruction.reg1, next.instruction.reg2].map(|n| regs[n as usize]);
                die.act(one != two);
                die.step_with(&next, Some(two), Some(one))
            }
            Effect::Extension(extension) => extended(die, &next, extension),
            Effect::Fetched { bit, value } => {
                let first = forced(next.first.into(), bit, value) as u16;
                let second = forced(next.second.into(), bit, value) as u16;
                patched(die, &next, first, second)
            }
            Effect::FetchAddress { bit, value } => from_elsewhere(die, &next, bit, value),
            _ => die.step(),
        }
    }
}

/// A step of other halfwords; the second counts only where the first asks for it.
fn patched(die: &mut Die, next: &Next, first: u16, second: u16) -> Did {
    let two = decoded(first, second).halfwords == 2;
    let second = if two { second } else { next.second };
    if (first, second) == (next.first, next.second) {
        return die.step();
    }
    die.acted = true;
    die.step_patched(first, two.then_some(second))
}

fn with_field(die: &mut Die, next: &Next, field: Field, bit: u8, value: bool) -> Did {
    let Some((word, _)) = field.of(next) else { return die.step() };
    let (first, second) = field.with(next, forced(word, bit, value));
    if first == next.first && second == next.second {
        return die.step();
    }
    die.acted = true;
    // a halfword that the fault does not change is the memory's own
    die.step_patched(first, (second != next.second).then_some(second))
}

/// A step whose operands went through `seen`: the port's number, the register's, and the word.
fn through(die: &mut Die, next: &Next, seen: impl Fn(u32, u32, u32) -> u32) -> Did {
    let (reads_1, reads_2) = reads(next.op());
    let operand = |port: u32, register: u32, reads: bool| {
        let word = die.state.processor.regs[register as usize];
        let other = seen(port, register, word);
        (reads && other != word).then_some(other)
    };
    let one = operand(1, next.instruction.reg1, reads_1);
    let two = operand(2, next.instruction.reg2, reads_2);
    if one.is_none() && two.is_none() {
        return die.step();
    }
    die.acted = true;
    die.step_with(next, one, two)
}

/// The halfwords of an address with a stuck line.
fn from_elsewhere(die: &mut Die, next: &Next, bit: u8, value: bool) -> Did {
    use super::super::die::Width;
    let pc = die.state.processor.pc;
    let half = |die: &Die, address: u32| die.load(Width::Half, forced(address, bit, value)) as u16;
    let (first, second) = (half(die, pc), half(die, pc.wrapping_add(2)));
    patched(die, next, first, second)
}

fn extended(die: &mut Die, next: &Next, extension: Extension) -> Did {
    let (op, immediate) = (next.op(), next.instruction.immediate);
    let negative = immediate >> 31 == 1;
    let reg1 = die.state.processor.regs[next.instruction.reg1 as usize];
    match extension {
        Extension::Imm5(of) if of == op && next.first >> 4 & 1 == 1 => imm5_with_zeros(die, next),
        Extension::Imm16(of) if of.contains(&op) && next.second >> 15 == 1 => {
            die.acted = true;
            // the displacement is 0x10000 more: so is the register
            die.step_with(next, Some(reg1.wrapping_add(0x1_0000)), None)
        }
        Extension::Signed16(of) if of == op && next.second >> 15 == 1 => {
            signed_logic(die, next, reg1)
        }
        Extension::Disp9 if op == op::BCOND && negative => jump_further(die, 0x200),
        Extension::Disp26(of) if of == op && negative => jump_further(die, 0x400_0000),
        _ => die.step(),
    }
}

/// MOV, ADD or CMP with five bits, of which the highest is set, as a number from 16 to 31: by their forms with a register.
fn imm5_with_zeros(die: &mut Die, next: &Next) -> Did {
    let opcode = match next.op() {
        op::MOV_IMM => op::MOV,
        op::ADD_IMM => op::ADD,
        _ => op::CMP,
    };
    let first = next.first & 0x3FF | (opcode as u16) << 10;
    let other = decoded(first, next.second);
    die.acted = true;
    die.step_with(&Next { first, ..other }, Some(u32::from(next.first & 31)), None)
}

/// ORI, ANDI or XORI whose high halfword is all ones: OR and XOR change reg1's, AND keeps it.
fn signed_logic(die: &mut Die, next: &Next, reg1: u32) -> Did {
    let did = die.step();
    if did != Did::Ended {
        return did;
    }
    let reg2 = next.instruction.reg2;
    let immediate = u32::from(next.second) | 0xFFFF_0000;
    let result = match next.op() {
        op::ORI => reg1 | immediate,
        op::ANDI => reg1 & immediate,
        _ => reg1 ^ immediate,
    };
    let zero_sign = u32::from(result == 0) | result >> 31 << 1;
    die.put(reg2, result);
    let psw = die.state.processor.psw & !3 | zero_sign;
    die.act(psw != die.state.processor.psw);
    die.state.processor.psw = psw;
    did
}

/// A jump backwards whose displacement is so much more.
fn jump_further(die: &mut Die, more: u32) -> Did {
    let (pc, next) = (die.state.processor.pc, die.at_pc());
    let did = die.step();
    let fell = next.op() == op::BCOND && die.state.processor.pc == pc.wrapping_add(2);
    if did == Did::Ended && !fell {
        die.state.processor.pc = die.state.processor.pc.wrapping_add(more);
        die.acted = true;
    }
    did
}
