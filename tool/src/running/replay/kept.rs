//! A state to come back to: the step at a record that differs is made again from before it.

use vb::{Hardware, Machine};

use crate::failure::Failure;
use crate::inputs::setup::Bench;

/// A state to come back to, and what was done since: steps, and lines and timer as the bench left them.
pub struct Kept {
    machine: Machine,
    wram: Vec<u8>,
    vram: Vec<u8>,
    pak: Vec<u8>,
    done: Vec<Done>,
    steps: u64,
}

enum Done {
    Steps(u64),
    Event(Hardware),
}

/// Steps after which a new state is kept.
const FAR: u64 = 1 << 16;

impl Kept {
    pub fn of(bench: &Bench) -> Kept {
        Kept {
            machine: bench.machine,
            wram: bench.wram.clone(),
            vram: bench.vram.clone(),
            pak: bench.pak.clone(),
            done: Vec::new(),
            steps: 0,
        }
    }

    /// Keeps the state that the bench holds, where the last one is far behind. No step was made beyond those that agreed.
    pub fn keep(&mut self, bench: &Bench) {
        if self.steps < FAR {
            return;
        }
        self.machine = bench.machine;
        self.wram.copy_from_slice(&bench.wram);
        self.vram.copy_from_slice(&bench.vram);
        self.pak.copy_from_slice(&bench.pak);
        self.done.clear();
        self.steps = 0;
    }

    pub fn event(&mut self, hardware: &Hardware) {
        if let Some(Done::Event(_)) = self.done.last() {
            self.done.pop();
        }
        self.done.push(Done::Event(*hardware));
    }

    /// So many records agreed.
    pub fn went_on(&mut self, steps: u64) {
        if steps > 0 {
            self.done.push(Done::Steps(steps));
            self.steps += steps;
        }
    }

    /// The machine after all that agreed, and before the next step.
    pub fn restore(&self, bench: &mut Bench) -> Result<(), Failure> {
        bench.machine = self.machine;
        bench.wram.copy_from_slice(&self.wram);
        bench.vram.copy_from_slice(&self.vram);
        bench.pak.copy_from_slice(&self.pak);
        for done in &self.done {
            match done {
                Done::Event(hardware) => bench.machine.processor.hardware = *hardware,
                Done::Steps(steps) => {
                    let (machine, mut memories) = bench.borrowed();
                    let ran = machine.run(&mut memories, *steps);
                    ran.map_err(|refusal| bench.failure(&refusal))?;
                }
            }
        }
        Ok(())
    }
}
