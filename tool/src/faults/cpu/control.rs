//! Interrupts, HALT, RETI, SEI, CLI, and exceptions that go wrong as a whole.

use vb::op;
use vbsys::Processor;

use super::super::die::{Did, Die};
use super::super::quantities::{Cell, Quantity, TURNED_FATAL};
use super::super::watch::Trigger;
use super::Inject;

#[derive(Clone, Debug, PartialEq)]
pub enum Effect {
    /// RETI takes FEPC and FEPSW with NP clear.
    RetiFe,
    /// .. and EIPC and EIPSW with NP set.
    RetiEi,
    RetiPswKept,
    FatalGoesOn,
    LowestWins,
    /// Of two levels that could be accepted, the lower one wins.
    Pair {
        low: u32,
        high: u32,
    },
    AboveIOnly,
    /// I, ID, EP or NP is not looked at.
    Ignored {
        bits: u32,
    },
    HaltGoesOn,
    HaltNeverWakes,
    HaltRestoreAtHalt,
    HaltNoAdvance,
    SeiClears,
    CliSets,
    LdsrFlagsOnly,
    LineLowered,
    FloatFlagNotSet,
    TrapRestoreOwn,
}

const ID: u32 = 1 << 12;
const NP: u32 = 1 << 15;
const FLOAT_FLAGS: u32 = 0x3C0;
/// Where a duplexed exception's saved registers are, and a plain one's.
const EP: u32 = 1 << 14;

impl Inject for Effect {
    fn trigger(&self) -> Trigger {
        let raised = || Trigger::Start;
        match self {
            Effect::RetiFe | Effect::RetiEi | Effect::RetiPswKept => Trigger::Op(op::RETI),
            Effect::FatalGoesOn => Trigger::Bit(Quantity::Entered, TURNED_FATAL, true),
            Effect::LowestWins
            | Effect::AboveIOnly
            | Effect::Ignored { .. }
            | Effect::LineLowered => raised(),
            Effect::Pair { high, .. } => {
                Trigger::Bit(Quantity::Cell(Cell::Lines), *high as u8, true)
            }
            Effect::HaltGoesOn
            | Effect::HaltNeverWakes
            | Effect::HaltRestoreAtHalt
            | Effect::HaltNoAdvance => Trigger::Op(op::HALT),
            Effect::SeiClears => Trigger::Op(op::SEI),
            Effect::CliSets => Trigger::Op(op::CLI),
            Effect::LdsrFlagsOnly => Trigger::Op(op::LDSR),
            Effect::FloatFlagNotSet => Trigger::Ops(&[
                op::CMPF_S,
                op::CVT_SW,
                op::ADDF_S,
                op::SUBF_S,
                op::MULF_S,
                op::DIVF_S,
                op::TRNC_SW,
            ]),
            Effect::TrapRestoreOwn => Trigger::Op(op::TRAP),
        }
    }

    fn wakes(&self) -> bool {
        true
    }

    fn step(&self, die: &mut Die) -> Did {
        let before = die.state.processor;
        let lines = before.hardware.lines;
        match *self {
            Effect::LowestWins | Effect::Pair { .. } | Effect::AboveIOnly => {
                return with_lines(die, self.lines(&before));
            }
            Effect::HaltNeverWakes if before.mode == vbsys::HALTED && lines != 0 => {
                return with_lines(die, 0);
            }
            Effect::Ignored { bits } => return ignoring(die, bits),
            _ => {}
        }
        if before.mode != vbsys::RUNNING
            && !matches!(self, Effect::HaltRestoreAtHalt | Effect::LineLowered)
        {
            return die.step();
        }
        let next = die.at_pc();
        let did = die.step();
        if did == Did::Fatal && *self == Effect::FatalGoesOn && before.mode == vbsys::RUNNING {
            die.state.processor.mode = vbsys::RUNNING;
            die.state.processor.pc = before.pc.wrapping_add(2 * next.halfwords);
            die.acted = true;
            return Did::Ended;
        }
        let plain = die.state.processor;
        self.change(die, next.op(), &before, did);
        if *self == Effect::LdsrFlagsOnly
            && next.op() == op::LDSR
            && next.instruction.immediate == 5
            && did == Did::Ended
        {
            die.state.processor.psw = before.psw & !15 | plain.psw & 15;
        }
        die.act(die.state.processor != plain);
        did
    }
}

impl Effect {
    /// The lines that acceptance sees.
    fn lines(&self, before: &Processor) -> u16 {
        let (lines, level) = (before.hardware.lines, before.psw >> 16 & 15);
        let acceptable = lines & !((1u32 << level) - 1) as u16;
        match *self {
            Effect::LowestWins if acceptable != 0 => 1 << acceptable.trailing_zeros(),
            Effect::AboveIOnly => lines & !(1u32 << level) as u16,
            Effect::Pair { low, high } => {
                let highest = 15 - acceptable.leading_zeros().min(15);
                let both = acceptable >> low & 1 == 1 && highest == high && acceptable != 0;
                if both {
                    lines & !(1 << high)
                } else {
                    lines
                }
            }
            _ => lines,
        }
    }

    fn change(&self, die: &mut Die, operation: u32, before: &Processor, did: Did) {
        let after = &mut die.state.processor;
        let ended = did == Did::Ended;
        let duplexed = before.psw & EP != 0;
        match (self, operation) {
            (Effect::RetiFe, op::RETI) if ended && before.psw & NP == 0 => {
                (after.pc, after.psw) = (before.fepc, before.fepsw);
            }
            (Effect::RetiEi, op::RETI) if ended && before.psw & NP != 0 => {
                (after.pc, after.psw) = (before.eipc, before.eipsw);
            }
            (Effect::RetiPswKept, op::RETI) if ended => after.psw = before.psw,
            (Effect::HaltGoesOn, op::HALT) if ended => after.mode = vbsys::RUNNING,
            (Effect::HaltNoAdvance, op::HALT) if ended => after.pc = before.pc,
            (Effect::SeiClears, op::SEI) if ended => after.psw &= !ID,
            (Effect::CliSets, op::CLI) if ended => after.psw |= ID,
            (Effect::TrapRestoreOwn, op::TRAP) if matches!(did, Did::Trapped(0xFFA0..=0xFFBF)) => {
                let place = if duplexed { &mut after.fepc } else { &mut after.eipc };
                *place = before.pc;
            }
            (Effect::FloatFlagNotSet, _) if matches!(did, Did::Trapped(0xFF60..=0xFF70)) => {
                let kept = |psw: u32| psw & !FLOAT_FLAGS | before.psw & FLOAT_FLAGS;
                after.psw = kept(after.psw);
                let place = if duplexed { &mut after.fepsw } else { &mut after.eipsw };
                *place = kept(*place);
            }
            _ => {}
        }
        if let Did::Interrupted(level) = did {
            match self {
                Effect::HaltRestoreAtHalt if before.mode == vbsys::HALTED => {
                    after.eipc = before.pc.wrapping_sub(2);
                }
                Effect::LineLowered => after.hardware.lines &= !(1 << level),
                _ => {}
            }
        }
    }
}

/// A step in which acceptance sees other lines.
fn with_lines(die: &mut Die, lines: u16) -> Did {
    let own = die.state.processor.hardware.lines;
    if lines == own {
        return die.step();
    }
    let accepted = die.accepted();
    die.state.processor.hardware.lines = lines;
    die.act(die.accepted() != accepted);
    let did = die.step();
    // a store to the timer's control lowers line 1 in the same step
    let lowered = lines & !die.state.processor.hardware.lines;
    die.state.processor.hardware.lines = own & !lowered;
    did
}

/// A step in which acceptance does not look at these bits of PSW.
fn ignoring(die: &mut Die, bits: u32) -> Did {
    let psw = die.state.processor.psw;
    if psw & bits == 0 || die.accepted().is_some() {
        return die.step();
    }
    die.state.processor.psw = psw & !bits;
    if die.accepted().is_none() {
        die.state.processor.psw = psw;
        return die.step();
    }
    let did = die.step();
    die.acted = true;
    die.state.processor.eipsw = psw;
    // what was not looked at stays, but for I, which the entry sets
    die.state.processor.psw |= psw & bits & !(15 << 16);
    did
}
