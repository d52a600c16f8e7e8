//! Faults of the processor, the bus, the request lines and the timer, put around the proved library's calls.

mod access;
mod bus;
mod control;
mod entry;
mod float;
mod list;
mod operands;
mod results;
mod state;
mod timer;
mod unit;

pub use list::list;

use super::die::{Did, Die};
use super::watch::Trigger;

/// What a fault of this side changes.
#[derive(Clone, Debug, PartialEq)]
pub enum Effect {
    /// Nothing: the plain run.
    Nothing,
    State(state::Effect),
    Result(results::Effect),
    Operand(operands::Effect),
    Unit(unit::Effect),
    Float(float::Effect),
    Access(access::Effect),
    Bus(bus::Effect),
    Entry(entry::Effect),
    Control(control::Effect),
    Timer(timer::Effect),
}

/// How a fault is put around the calls.
pub trait Inject {
    /// From when on it can act.
    fn trigger(&self) -> Trigger;

    /// A step of a die with it.
    fn step(&self, die: &mut Die) -> Did {
        die.step()
    }

    /// A tick of the timer.
    fn tick(&self, die: &mut Die) {
        die.tick();
    }

    /// What it does to the state at the start, and after each step, tick and change of a line.
    fn settle(&self, _die: &mut Die) {}

    /// Whether it can change what wakes a halted die: its lines, its timer, or what it accepts.
    fn wakes(&self) -> bool {
        false
    }

    /// What it does to the state of a reset.
    fn reset(&self, _die: &mut Die) {}
}

struct Nothing;

impl Inject for Nothing {
    fn trigger(&self) -> Trigger {
        Trigger::Start
    }
}

impl Effect {
    pub fn inject(&self) -> &dyn Inject {
        match self {
            Effect::Nothing => &Nothing,
            Effect::State(effect) => effect,
            Effect::Result(effect) => effect,
            Effect::Operand(effect) => effect,
            Effect::Unit(effect) => effect,
            Effect::Float(effect) => effect,
            Effect::Access(effect) => effect,
            Effect::Bus(effect) => effect,
            Effect::Entry(effect) => effect,
            Effect::Control(effect) => effect,
            Effect::Timer(effect) => effect,
        }
    }
}

/// A word with one bit at a value.
fn forced(word: u32, bit: u8, value: bool) -> u32 {
    word & !(1 << bit) | u32::from(value) << bit
}
