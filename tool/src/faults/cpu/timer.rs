//! Rules of the timer.

use super::super::die::{store_of, Did, Die};
use super::super::quantities::{Quantity, TICKED};
use super::super::watch::Trigger;
use super::operands::STORES;
use super::Inject;

#[derive(Clone, Copy, Debug, PartialEq)]
pub enum Effect {
    NoReload,
    ZeroEarly,
    ZStatNotSet,
    LineNotRaised,
    ZStatClrIgnored,
    LineKept,
    CountWriteLost,
    /// Every tick counts twice; every second one counts.
    CountsTwice,
    EverySecond,
    /// The slow interval with T-Clk-Sel set, and the fast one with it clear.
    PrescalerSlow,
    PrescalerFast,
    /// The count goes on at zero to 0xFFFF.
    Wraps,
    /// Counts with T-Enb clear.
    AlwaysCounts,
}

const T_ENB: u16 = 1;
const Z_STAT: u16 = 2;
const TIM_Z_INT: u16 = 8;
const T_CLK_SEL: u16 = 16;
const LINE: u16 = 2;

impl Inject for Effect {
    fn trigger(&self) -> Trigger {
        match self {
            Effect::ZStatClrIgnored | Effect::LineKept | Effect::CountWriteLost => {
                Trigger::Ops(STORES)
            }
            _ => Trigger::Bit(Quantity::Entered, TICKED, true),
        }
    }

    fn wakes(&self) -> bool {
        true
    }

    fn tick(&self, die: &mut Die) {
        let before = die.state.processor.hardware;
        die.tick();
        let plain = die.state.processor.hardware;
        let zero = before.control & T_ENB != 0 && plain.count == 0;
        let mut after = plain;
        match self {
            Effect::NoReload if before.count == 0 && before.control & T_ENB != 0 => after.count = 0,
            Effect::ZeroEarly if plain.count == 1 && before.control & T_ENB != 0 => {
                after.control |= Z_STAT;
                after.lines |= if after.control & TIM_Z_INT != 0 { LINE } else { 0 };
            }
            Effect::ZStatNotSet if zero => after.control = before.control,
            Effect::LineNotRaised if zero => after.lines = before.lines,
            Effect::Wraps if before.count == 0 && before.control & T_ENB != 0 => {
                after = before;
                after.count = 0xFFFF;
            }
            _ => {}
        }
        die.act(after != plain);
        die.state.processor.hardware = after;
        self.rate(die, &before);
    }

    fn step(&self, die: &mut Die) -> Did {
        let rules = [Effect::ZStatClrIgnored, Effect::LineKept, Effect::CountWriteLost];
        if !rules.contains(self) || !die.runs() {
            return die.step();
        }
        let next = die.at_pc();
        let Some(_) = store_of(next.op()) else { return die.step() };
        let before = die.state.processor.hardware;
        let did = die.step();
        let plain = die.state.processor.hardware;
        let mut after = plain;
        match self {
            Effect::ZStatClrIgnored => after.control |= before.control & Z_STAT,
            Effect::LineKept => after.lines |= before.lines & LINE,
            _ if before.reload != plain.reload || before.count != plain.count => {
                after.count = before.count;
            }
            _ => {}
        }
        die.act(after != plain);
        die.state.processor.hardware = after;
        did
    }
}

impl Effect {
    /// Ticks that count more often than once, or not at all.
    fn rate(&self, die: &mut Die, before: &vbsys::Hardware) {
        let plain = die.state.processor.hardware;
        let fast = before.control & T_CLK_SEL != 0;
        die.ticks = die.ticks.wrapping_add(1);
        match self {
            Effect::CountsTwice => die.tick(),
            Effect::PrescalerFast if !fast => (0..4).for_each(|_| die.tick()),
            Effect::EverySecond if die.ticks % 2 == 1 => die.state.processor.hardware = *before,
            Effect::PrescalerSlow if fast && !die.ticks.is_multiple_of(5) => {
                die.state.processor.hardware = *before;
            }
            Effect::AlwaysCounts if before.control & T_ENB == 0 => {
                die.state.processor.hardware.control |= T_ENB;
                die.tick();
                die.state.processor.hardware.control &= !T_ENB;
            }
            _ => {}
        }
        die.act(die.state.processor.hardware != plain);
    }
}
