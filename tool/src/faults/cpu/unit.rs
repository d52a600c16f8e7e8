//! Rules of the arithmetic units: carries, partial products, shift amounts, r30, signs, divisions.

use vb::op;
use vbsys::Processor;

use super::super::die::{Did, Die, Next};
use super::super::quantities::{added, carries, Quantity};
use super::super::watch::Trigger;
use super::{forced, Inject};

#[derive(Clone, Debug, PartialEq)]
pub enum Effect {
    /// The carry into a bit of ADD, SUB and CMP.
    Carry {
        bit: u8,
        value: bool,
    },
    /// The multiplier's row of a bit of reg1.
    Row {
        bit: u8,
    },
    ShiftAmount {
        bit: u8,
        value: bool,
    },
    /// r30 gets 0, or keeps its value.
    Second {
        op: u32,
        kept: bool,
    },
    /// Where reg2 is r30, the second result is there.
    SecondWins {
        op: u32,
    },
    /// MUL and DIV as MULU and DIVU, and the other way round.
    OtherSign {
        op: u32,
    },
    DivFloor,
    SarZeros,
    Mpyhw16,
    JalLink2,
    DivideByZeroEnds,
}

const SHIFTS: &[u32] = &[op::SHL, op::SHR, op::SAR, op::SHL_IMM, op::SHR_IMM, op::SAR_IMM];
const SHIFTED: [(u32, u32); 3] =
    [(op::SHL_IMM, op::SHL), (op::SHR_IMM, op::SHR), (op::SAR_IMM, op::SAR)];

impl Inject for Effect {
    fn trigger(&self) -> Trigger {
        match *self {
            Effect::Carry { bit, value } => Trigger::Bit(Quantity::Carry, bit, !value),
            Effect::Row { .. } => Trigger::Ops(&[op::MUL, op::MULU]),
            Effect::ShiftAmount { .. } => Trigger::Ops(SHIFTS),
            Effect::Second { op, .. } | Effect::SecondWins { op } | Effect::OtherSign { op } => {
                Trigger::Op(op)
            }
            Effect::DivFloor => Trigger::Op(op::DIV),
            Effect::SarZeros => Trigger::Ops(&[op::SAR, op::SAR_IMM]),
            Effect::Mpyhw16 => Trigger::Op(op::MPYHW),
            Effect::JalLink2 => Trigger::Op(op::JAL),
            Effect::DivideByZeroEnds => Trigger::Ops(&[op::DIV, op::DIVU]),
        }
    }

    fn step(&self, die: &mut Die) -> Did {
        if !die.runs() {
            return die.step();
        }
        let next = die.at_pc();
        let op = next.op();
        let reg1 = die.state.processor.regs[next.instruction.reg1 as usize];
        match *self {
            Effect::Row { bit } if matches!(op, op::MUL | op::MULU) && reg1 >> bit & 1 == 1 => {
                die.acted = true;
                die.step_with(&next, Some(forced(reg1, bit, false)), None)
            }
            Effect::ShiftAmount { bit, value } if SHIFTS.contains(&op) => {
                shift(die, &next, bit, value)
            }
            Effect::Mpyhw16 if op == op::MPYHW => {
                let half = reg1 as u16 as i16 as i32 as u32;
                die.act((half ^ reg1) & 0x1_FFFF != 0);
                die.step_with(&next, Some(half), None)
            }
            Effect::OtherSign { op: of } if op == of => {
                let kept = die.state.processor;
                let did = die.step_patched(next.first ^ 2 << 10, None);
                let acted = differs(die, kept);
                die.act(acted);
                did
            }
            Effect::DivideByZeroEnds if matches!(op, op::DIV | op::DIVU) && reg1 == 0 => {
                die.acted = true;
                die.state.processor.pc = die.state.processor.pc.wrapping_add(2);
                Did::Ended
            }
            _ => {
                let before = die.state.processor;
                let did = die.step();
                if did == Did::Ended {
                    self.change(die, &next, &before);
                }
                did
            }
        }
    }
}

/// Whether the plain instruction would have left something else.
fn differs(die: &mut Die, before: Processor) -> bool {
    let after = std::mem::replace(&mut die.state.processor, before);
    die.step();
    let plain = std::mem::replace(&mut die.state.processor, after);
    plain != after
}

impl Effect {
    fn change(&self, die: &mut Die, next: &Next, before: &Processor) {
        let (op, reg2) = (next.op(), next.instruction.reg2);
        match *self {
            Effect::Carry { bit, value } => {
                if let Some((left, right, subtracts)) = added(before, next) {
                    carry(die, next, (left, right, subtracts), (bit, value));
                }
            }
            Effect::Second { op: of, kept } if of == op && reg2 != 30 => {
                die.put(30, if kept { before.regs[30] } else { 0 });
            }
            Effect::SecondWins { op: of } if of == op && reg2 == 30 => {
                let [left, right] =
                    [next.instruction.reg2, next.instruction.reg1].map(|n| before.regs[n as usize]);
                die.put(30, second(op, left, right));
            }
            Effect::DivFloor if op == op::DIV => floor(die, next, before),
            Effect::SarZeros if matches!(op, op::SAR | op::SAR_IMM) => {
                let amount = match op {
                    op::SAR => before.regs[next.instruction.reg1 as usize] & 31,
                    _ => next.instruction.immediate & 31,
                };
                let result = before.regs[reg2 as usize] >> amount;
                result_with_flags(die, reg2, result);
            }
            Effect::JalLink2 if op == op::JAL => {
                die.put(31, before.pc.wrapping_add(2));
            }
            _ => {}
        }
    }
}

/// A result, and Z and S as it makes them.
fn result_with_flags(die: &mut Die, reg2: u32, result: u32) {
    die.put(reg2, result);
    let psw = die.state.processor.psw & !3 | u32::from(result == 0) | result >> 31 << 1;
    die.act(psw != die.state.processor.psw);
    die.state.processor.psw = psw;
}

/// The adder with one carry at a value, from there upwards; CY and OV are the carries out of and into bit 31.
fn carry(die: &mut Die, next: &Next, of: (u32, u32, bool), stuck: (u8, bool)) {
    let ((left, right, subtracts), (bit, value)) = (of, stuck);
    if (carries(left, right, subtracts) >> bit & 1 == 1) == value {
        return;
    }
    let right = if subtracts { !right } else { right };
    let (mut sum, mut carry, mut into_31) = (0u32, u32::from(subtracts), 0);
    for n in 0..32 {
        carry = if n == u32::from(bit) { value.into() } else { carry };
        into_31 = if n == 31 { carry } else { into_31 };
        let (one, two) = (left >> n & 1, right >> n & 1);
        sum |= (one ^ two ^ carry) << n;
        carry = one & two | carry & (one ^ two);
    }
    if !matches!(next.op(), op::CMP | op::CMP_IMM) {
        die.put(next.instruction.reg2, sum);
    }
    let carried = carry ^ u32::from(subtracts);
    let flags = u32::from(sum == 0) | sum >> 31 << 1 | (carry ^ into_31) << 2 | carried << 3;
    let psw = die.state.processor.psw & !15 | flags;
    die.act(psw != die.state.processor.psw);
    die.state.processor.psw = psw;
}

/// A shift by an amount with a stuck bit.
fn shift(die: &mut Die, next: &Next, bit: u8, value: bool) -> Did {
    let immediate = SHIFTED.iter().find(|(immediate, _)| *immediate == next.op());
    if immediate.is_some() {
        let amount = forced(u32::from(next.first) & 31, bit, value) as u16;
        let first = next.first & !31 | amount;
        die.act(first != next.first);
        return die.step_patched(first, None);
    }
    let amount = die.state.processor.regs[next.instruction.reg1 as usize];
    die.act((amount >> bit & 1 == 1) != value);
    die.step_with(next, Some(forced(amount, bit, value)), None)
}

/// The second result of a multiplication or division.
fn second(op: u32, left: u32, right: u32) -> u32 {
    let (signed_left, signed_right) = (i64::from(left as i32), i64::from(right as i32));
    match op {
        op::MUL => ((signed_left * signed_right) >> 32) as u32,
        op::MULU => ((u64::from(left) * u64::from(right)) >> 32) as u32,
        op::DIV => signed_left.checked_rem(signed_right).unwrap_or(0) as u32,
        _ => left.checked_rem(right).unwrap_or(0),
    }
}

/// DIV whose quotient is rounded down: the remainder has the divisor's sign.
fn floor(die: &mut Die, next: &Next, before: &Processor) {
    let (reg1, reg2) = (next.instruction.reg1, next.instruction.reg2);
    let [left, right] = [reg2, reg1].map(|n| i64::from(before.regs[n as usize] as i32));
    if right == 0 || left % right == 0 || (left < 0) == (right < 0) {
        return;
    }
    let (quotient, rest) = (left / right - 1, left % right + right);
    die.put(30, rest as u32);
    result_with_flags(die, reg2, quotient as u32);
}
