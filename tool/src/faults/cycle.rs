//! A die in a loop that nothing ends: its state and memories are what they were some steps ago, and no event is to come.

use super::die::{Die, State};
use super::reference::Reference;

/// Steps before a loop is looked for.
const PATIENCE: u64 = 4_096;

pub struct Cycle {
    /// Whether the test has no events: only then a loop is for ever.
    alone: bool,
    steps: u64,
    /// When the state is kept next, which is ever later.
    next: u64,
    kept: State,
    /// The memories where the kept state was met again.
    memories: Option<[Vec<u8>; 3]>,
}

impl Cycle {
    pub fn new(reference: &Reference) -> Cycle {
        let alone = reference.test.schedule.is_none();
        Cycle { alone, steps: 0, next: PATIENCE, kept: State::default(), memories: None }
    }

    /// Counts a step; whether the die is in such a loop.
    pub fn closed(&mut self, die: &Die) -> bool {
        self.steps += 1;
        if self.steps == self.next {
            (self.kept, self.memories, self.next) = (die.state, None, 2 * self.next);
            return false;
        }
        if !self.alone || self.steps < PATIENCE || self.kept.processor.pc != die.state.processor.pc
        {
            return false;
        }
        self.kept == die.state && self.memories_again(die)
    }

    /// Whether the memories are those of the last time that the state was this one.
    fn memories_again(&mut self, die: &Die) -> bool {
        let own = [&die.wram, &die.vram, &die.pak];
        match &self.memories {
            Some(kept) if kept.iter().zip(own).all(|(one, two)| one == two) => true,
            _ => {
                self.memories = Some(own.map(Vec::clone));
                false
            }
        }
    }
}
