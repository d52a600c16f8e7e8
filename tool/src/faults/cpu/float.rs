//! Floating-point rules: rounding, and results that saturate instead of raising an exception.

use vb::op;
use vbsys::Processor;

use super::super::die::{Did, Die, Next};
use super::super::watch::Trigger;
use super::Inject;

#[derive(Clone, Debug, PartialEq)]
pub enum Effect {
    /// Rounds towards minus infinity instead of to nearest; TRNC.SW to nearest.
    Rounding { op: u32 },
    /// An overflow gives the largest number, and no exception.
    Saturates { op: u32 },
    /// An underflow leaves FUD as it is, and gives the number's sign with the smallest normal size.
    UnderflowSmallest { op: u32 },
}

impl Effect {
    fn op(&self) -> u32 {
        match *self {
            Effect::Rounding { op }
            | Effect::Saturates { op }
            | Effect::UnderflowSmallest { op } => op,
        }
    }
}

const OVERFLOW: u32 = 0xFF64;
const INVALID: u32 = 0xFF70;
const FUD: u32 = 1 << 5;

impl Inject for Effect {
    fn trigger(&self) -> Trigger {
        Trigger::Op(self.op())
    }

    fn step(&self, die: &mut Die) -> Did {
        if !die.runs() {
            return die.step();
        }
        let next = die.at_pc();
        if next.op() != self.op() {
            return die.step();
        }
        let before = die.state.processor;
        let did = die.step();
        match (self, did) {
            (Effect::Rounding { .. }, Did::Ended) => round(die, &next, &before),
            (Effect::Saturates { .. }, Did::Trapped(OVERFLOW | INVALID)) => {
                return saturate(die, &next, &before);
            }
            (Effect::UnderflowSmallest { .. }, Did::Ended) => {
                let reg2 = next.instruction.reg2;
                let result = die.state.processor.regs[reg2 as usize];
                let fresh = die.state.processor.psw & !before.psw & FUD != 0;
                if fresh && result << 1 == 0 {
                    write(die, reg2, result | 0x0080_0000, before.psw & FUD);
                }
            }
            _ => {}
        }
        did
    }
}

/// Writes a float with its flags, and FUD as given.
fn write(die: &mut Die, reg2: u32, result: u32, underflow: u32) {
    let (zero, negative) = (result << 1 == 0, result >> 31 == 1 && result << 1 != 0);
    let flags = u32::from(zero) | u32::from(negative) << 1 | u32::from(negative) << 3;
    die.put(reg2, result);
    let psw = die.state.processor.psw & !(15 | FUD) | flags | underflow;
    die.act(psw != die.state.processor.psw);
    die.state.processor.psw = psw;
}

/// Writes a whole number with its flags; CY stays.
fn write_whole(die: &mut Die, reg2: u32, result: u32) {
    die.put(reg2, result);
    let psw = die.state.processor.psw & !7 | u32::from(result == 0) | result >> 31 << 1;
    die.act(psw != die.state.processor.psw);
    die.state.processor.psw = psw;
}

fn round(die: &mut Die, next: &Next, before: &Processor) {
    let (reg1, reg2) = (next.instruction.reg1, next.instruction.reg2);
    let [one, two] = [reg1, reg2].map(|n| before.regs[n as usize]);
    let result = die.state.processor.regs[reg2 as usize];
    let right = f64::from(f32::from_bits(one));
    if matches!(next.op(), op::CVT_SW | op::TRNC_SW) {
        let whole = match next.op() {
            op::CVT_SW => right.floor(),
            _ => nearest(right),
        };
        if reg2 != 0 && whole >= f64::from(i32::MIN) && whole <= f64::from(i32::MAX) {
            write_whole(die, reg2, whole as i32 as u32);
        }
        return;
    }
    let left = f64::from(f32::from_bits(two));
    let rounded = f64::from(f32::from_bits(result));
    if reg2 == 0 || rounded == 0.0 {
        return;
    }
    let above = match next.op() {
        op::CVT_WS => rounded - f64::from(one as i32),
        op::MULF_S => rounded - left * right,
        // the sign of rounded - left / right
        op::DIVF_S => (rounded * right - left) * right.signum(),
        op::SUBF_S => above_sum(rounded, left, -right),
        _ => above_sum(rounded, left, right),
    };
    if above > 0.0 {
        let lower = f32::from_bits(result);
        let lower = if lower > 0.0 { result - 1 } else { result + 1 };
        if lower & 0x7F80_0000 != 0 && lower & 0x7F80_0000 != 0x7F80_0000 {
            write(die, reg2, lower, die.state.processor.psw & FUD);
        }
    }
}

/// rounded - (left + right), of the right sign: the sum's own rounding error counts.
fn above_sum(rounded: f64, left: f64, right: f64) -> f64 {
    let sum = left + right;
    let part = sum - left;
    let error = (left - (sum - part)) + (right - part);
    (rounded - sum) - error
}

/// The nearest whole number, the even one of two.
fn nearest(value: f64) -> f64 {
    let (below, rest) = (value.floor(), value - value.floor());
    match rest {
        rest if rest < 0.5 => below,
        rest if rest > 0.5 => below + 1.0,
        _ if below % 2.0 == 0.0 => below,
        _ => below + 1.0,
    }
}

/// The exception is not raised: the result is the largest of its sign.
fn saturate(die: &mut Die, next: &Next, before: &Processor) -> Did {
    let (reg1, reg2) = (next.instruction.reg1, next.instruction.reg2);
    let [one, two] = [reg1, reg2].map(|n| before.regs[n as usize]);
    let whole = matches!(next.op(), op::CVT_SW | op::TRNC_SW);
    if !whole && one << 1 == 0 && next.op() == op::DIVF_S {
        return Did::Trapped(INVALID);
    }
    let kept = die.state.processor;
    die.state.processor = *before;
    die.state.processor.pc = before.pc.wrapping_add(4);
    let negative = match next.op() {
        op::MULF_S | op::DIVF_S => (one ^ two) >> 31,
        op::CVT_SW | op::TRNC_SW => one >> 31,
        // of a sum that overflows both terms have its sign
        _ => two >> 31,
    };
    match whole {
        true => write_whole(die, reg2, if negative == 1 { 0x8000_0000 } else { 0x7FFF_FFFF }),
        false => write(die, reg2, negative << 31 | 0x7F7F_FFFF, before.psw & FUD),
    }
    die.act(kept != die.state.processor);
    Did::Ended
}
