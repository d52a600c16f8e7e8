//! How an exception or interrupt is entered.

use vbsys::Processor;

use super::super::die::{Did, Die};
use super::super::quantities::{entered, Quantity, DUPLEXED};
use super::super::watch::Trigger;
use super::Inject;

/// A cause of the list, by its bit of `Quantity::Entered`, and what is wrong where it is entered.
#[derive(Clone, Debug, PartialEq)]
pub struct Effect {
    pub cause: u8,
    pub wrong: Wrong,
}

#[derive(Clone, Copy, Debug, PartialEq)]
pub enum Wrong {
    Code,
    RestorePc,
    Handler,
    IdNotSet,
    /// EP, or NP of a duplexed one.
    LevelNotSet,
    AeKept,
    PswSavedLate,
    IKept,
    IIsLevel,
}

const ID: u32 = 1 << 12;
const AE: u32 = 1 << 13;
const EP: u32 = 1 << 14;
const NP: u32 = 1 << 15;
const I: u32 = 15 << 16;

impl Inject for Effect {
    fn trigger(&self) -> Trigger {
        Trigger::Bit(Quantity::Entered, self.cause, true)
    }

    fn step(&self, die: &mut Die) -> Did {
        let before = die.state.processor;
        let did = die.step();
        if matches!(did, Did::Trapped(_) | Did::Interrupted(_))
            && entered(did, &before) == 1 << self.cause
        {
            let plain = die.state.processor;
            self.change(&mut die.state.processor, &before);
            die.act(die.state.processor != plain);
        }
        did
    }
}

impl Effect {
    fn change(&self, after: &mut Processor, before: &Processor) {
        let duplexed = self.cause == DUPLEXED;
        let keep = |bits: u32| before.psw & bits;
        match self.wrong {
            Wrong::Code => after.ecr ^= if duplexed { 0x10 << 16 } else { 0x10 },
            Wrong::RestorePc => {
                let place = if duplexed { &mut after.fepc } else { &mut after.eipc };
                *place = place.wrapping_add(2);
            }
            Wrong::Handler => after.pc = after.pc.wrapping_sub(0x10),
            Wrong::IdNotSet => after.psw = after.psw & !ID | keep(ID),
            Wrong::LevelNotSet => after.psw &= !if duplexed { NP } else { EP },
            Wrong::AeKept => after.psw = after.psw & !AE | keep(AE),
            Wrong::PswSavedLate => {
                let place = if duplexed { &mut after.fepsw } else { &mut after.eipsw };
                *place = after.psw;
            }
            Wrong::IKept => after.psw = after.psw & !I | keep(I),
            Wrong::IIsLevel => after.psw -= 1 << 16,
        }
    }
}
