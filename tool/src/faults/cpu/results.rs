//! What an operation leaves: result bits, flags, nothing at all; conditions; jump targets; LDSR and STSR.

use vb::op;
use vbsys::Processor;

use super::super::die::{Did, Die, Next};
use super::super::quantities::{added, holds, Quantity};
use super::super::watch::Trigger;
use super::{forced, Inject};

#[derive(Clone, Debug, PartialEq)]
pub enum Effect {
    Result {
        op: u32,
        bit: u8,
        value: bool,
    },
    /// The result in r30.
    Second {
        op: u32,
        bit: u8,
        value: bool,
    },
    Flag {
        op: u32,
        bit: u8,
        how: FlagHow,
    },
    /// The operation does nothing but end.
    Lost {
        op: u32,
    },
    Condition {
        setf: bool,
        condition: u32,
        how: Condition,
    },
    /// A flag that a condition sees is stuck.
    ConditionFlag {
        setf: bool,
        condition: u32,
        flag: u8,
        value: bool,
    },
    /// A bit of the address that a jump goes to.
    Target {
        op: u32,
        bit: u8,
        value: bool,
    },
    /// LDSR to this register does nothing; STSR from this one gives 0.
    Ldsr(u32),
    Stsr(u32),
}

#[derive(Clone, Copy, Debug, PartialEq)]
pub enum FlagHow {
    Stuck(bool),
    Inverted,
    Kept,
}

#[derive(Clone, Copy, Debug, PartialEq)]
pub enum Condition {
    Inverted,
    Always,
    Never,
}

impl Effect {
    /// The operation that it changes.
    fn op(&self) -> u32 {
        match *self {
            Effect::Result { op, .. }
            | Effect::Second { op, .. }
            | Effect::Flag { op, .. }
            | Effect::Lost { op }
            | Effect::Target { op, .. } => op,
            Effect::Condition { setf, .. } | Effect::ConditionFlag { setf, .. } => {
                if setf {
                    op::SETF
                } else {
                    op::BCOND
                }
            }
            Effect::Ldsr(_) => op::LDSR,
            Effect::Stsr(_) => op::STSR,
        }
    }
}

impl Inject for Effect {
    fn trigger(&self) -> Trigger {
        let bit = |quantity, bit, value| Trigger::Bit(quantity, bit, value);
        match *self {
            Effect::Result { op, bit: n, value } => bit(Quantity::Result(op), n, !value),
            Effect::Second { op, bit: n, value } => bit(Quantity::Second(op), n, !value),
            Effect::Flag { op, bit: n, how: FlagHow::Stuck(value) } => {
                bit(Quantity::Flags(op), n, !value)
            }
            Effect::Flag { op, bit: n, how: FlagHow::Kept } => {
                bit(Quantity::FlagsChanged(op), n, true)
            }
            Effect::Target { op, bit: n, value } => bit(Quantity::Target(op), n, !value),
            Effect::Condition { setf, condition, how } if how != Condition::Inverted => {
                let held = how == Condition::Never;
                bit(Quantity::Held(setf.into()), condition as u8, held)
            }
            _ => Trigger::Op(self.op()),
        }
    }

    fn step(&self, die: &mut Die) -> Did {
        if die.state.processor.mode != vbsys::RUNNING {
            return die.step();
        }
        let next = die.at_pc();
        if next.op() != self.op() {
            return die.step();
        }
        let before = die.state.processor;
        match *self {
            Effect::Lost { .. } => return lost(die, &next),
            Effect::ConditionFlag { condition, flag, value, .. } => {
                return flag_for_condition(die, &next, condition, flag, value);
            }
            Effect::Condition { condition, how, .. } => {
                return with_condition(die, &next, condition, how);
            }
            _ => {}
        }
        let did = die.step();
        if did == Did::Ended {
            self.change(die, &next, &before);
        }
        did
    }
}

impl Effect {
    /// Changes what an operation that ended has left.
    fn change(&self, die: &mut Die, next: &Next, before: &Processor) {
        let reg2 = next.instruction.reg2;
        match *self {
            Effect::Result { op: op::CMP | op::CMP_IMM, bit, value } => {
                compared(die, next, before, bit, value);
            }
            Effect::Result { op, bit, value } => {
                let register = if op == op::JAL { 31 } else { reg2 };
                let result = die.state.processor.regs[register as usize];
                die.put(register, forced(result, bit, value));
            }
            Effect::Second { bit, value, .. } if reg2 != 30 => {
                let result = die.state.processor.regs[30];
                die.put(30, forced(result, bit, value));
            }
            Effect::Flag { bit, how, .. } => {
                let flag = match how {
                    FlagHow::Stuck(value) => value,
                    FlagHow::Inverted => die.state.processor.psw >> bit & 1 == 0,
                    FlagHow::Kept => before.psw >> bit & 1 == 1,
                };
                flags(die, forced(die.state.processor.psw, bit, flag));
            }
            Effect::Target { bit, value, .. } => {
                // a Bcond that is not taken has no target
                let fallen =
                    next.op() == op::BCOND && !holds(next.instruction.condition, before.psw);
                let target = forced(die.state.processor.pc, bit, value);
                if !fallen && target != die.state.processor.pc {
                    die.state.processor.pc = target;
                    die.acted = true;
                }
            }
            Effect::Ldsr(number) if next.instruction.immediate == number => {
                let after = die.state.processor;
                let kept = Processor { pc: after.pc, ..*before };
                die.act(kept != after);
                die.state.processor = kept;
            }
            Effect::Stsr(number) if next.instruction.immediate == number => die.put(reg2, 0),
            _ => {}
        }
    }
}

/// Puts flags into PSW.
fn flags(die: &mut Die, psw: u32) {
    die.act(die.state.processor.psw != psw);
    die.state.processor.psw = psw;
}

/// CMP's difference has a stuck bit: Z and S follow it.
fn compared(die: &mut Die, next: &Next, before: &Processor, bit: u8, value: bool) {
    let Some((left, right, _)) = added(before, next) else { return };
    let result = forced(left.wrapping_sub(right), bit, value);
    let zero_sign = u32::from(result == 0) | result >> 31 << 1;
    flags(die, die.state.processor.psw & !3 | zero_sign);
}

/// The instruction ends and has done nothing.
fn lost(die: &mut Die, next: &Next) -> Did {
    if die.accepted().is_some() {
        return die.step();
    }
    die.state.processor.pc = die.state.processor.pc.wrapping_add(2 * next.halfwords);
    die.acted = true;
    Did::Ended
}

/// The condition that stands for always, and the one for never.
const ALWAYS: u32 = 5;
const NEVER: u32 = 13;

/// Executes Bcond or SETF with the condition as the fault makes it.
fn with_condition(die: &mut Die, next: &Next, condition: u32, how: Condition) -> Did {
    if next.instruction.condition != condition {
        return die.step();
    }
    let held = holds(condition, die.state.processor.psw);
    let holds = match how {
        Condition::Inverted => !held,
        Condition::Always => true,
        Condition::Never => false,
    };
    decided(die, next, held, holds)
}

fn decided(die: &mut Die, next: &Next, held: bool, holds: bool) -> Did {
    if held == holds {
        return die.step();
    }
    let condition = if holds { ALWAYS } else { NEVER } as u16;
    let first = match next.op() {
        op::BCOND => next.first & !(15 << 9) | condition << 9,
        _ => next.first & !15 | condition,
    };
    let did = die.step_patched(first, None);
    die.act(did == Did::Ended);
    did
}

fn flag_for_condition(die: &mut Die, next: &Next, condition: u32, flag: u8, value: bool) -> Did {
    if next.instruction.condition != condition {
        return die.step();
    }
    let psw = die.state.processor.psw;
    decided(die, next, holds(condition, psw), holds(condition, forced(psw, flag, value)))
}
