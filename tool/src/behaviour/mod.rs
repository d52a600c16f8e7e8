//! Behaviour coverage: which cells of which tables a plan exercises. The model's run is watched step by step, and each
//! scene that it draws is looked at.

mod accesses;
mod control;
mod objects;
mod operands;
mod table;
mod worlds;

pub use table::Table;

use model::DrawingRegisters;
use rayon::prelude::*;
use serde::{Deserialize, Serialize};
use vb::{grouped, Answer, Decoded, Drawing, Instruction, Processor, ReadMemories};

use self::accesses::Accesses;
use self::control::Control;
use self::objects::Objects;
use self::operands::Operands;
use self::worlds::Worlds;
use crate::failure::Failure;
use crate::inputs::setup::Bench;
use crate::plan::{again, Expected, Test, Watch};

/// One step of the model.
pub struct Step<'a> {
    pub before: &'a Processor,
    /// What was executed; none where an interrupt was accepted or the opcode is illegal.
    pub instruction: Option<Instruction>,
    pub answer: &'a Answer,
    pub after: &'a Processor,
    /// The length of ROM.
    pub rom: usize,
}

/// A machine that is about to make a step.
pub struct Before {
    processor: Processor,
    instruction: Option<Instruction>,
    rom: usize,
}

impl Before {
    pub fn of(bench: &Bench) -> Before {
        let Bench { rom, wram, vram, pak, machine, .. } = bench;
        let memories = ReadMemories { rom, wram, vram, pak };
        let half = |address: u32| machine.load_half(&memories, address).unwrap_or_default();
        let pc = machine.processor.pc;
        let instruction = match vb::decode(half(pc), half(pc.wrapping_add(2))) {
            Decoded::Instruction { instruction, .. } => Some(instruction),
            _ => None,
        };
        Before { processor: machine.processor, instruction, rom: rom.len() }
    }
}

/// What was seen.
pub struct Behaviour {
    operands: Operands,
    control: Control,
    accesses: Accesses,
    worlds: Worlds,
    objects: Objects,
}

/// One table of a report.
#[derive(Clone, Debug, PartialEq, Eq, Deserialize, Serialize)]
pub struct Counted {
    pub table: String,
    pub cells: usize,
    pub exercised: usize,
    /// The names of the cells that nothing exercised.
    pub empty: Vec<String>,
}

impl Default for Behaviour {
    fn default() -> Behaviour {
        Behaviour {
            operands: Operands::new(),
            control: Control::new(),
            accesses: Accesses::new(),
            worlds: Worlds::new(),
            objects: Objects::new(),
        }
    }
}

/// What a plan's tests exercise, on all cores; `expected` is the model's answer to each.
pub fn behaviour(tests: &[Test], expected: &[Expected]) -> Result<Vec<Counted>, Failure> {
    let watched = tests.par_iter().zip(expected).map(|(test, expected)| {
        let mut behaviour = Behaviour::default();
        for frame in &expected.frames {
            behaviour.scene(&frame.vram, &frame.drawing, frame.buffer);
        }
        again(test, &expected.files, Watch::Behaviour(&mut behaviour))?;
        Ok(behaviour.tables())
    });
    let watched: Vec<Vec<Table>> = watched.collect::<Result<_, Failure>>()?;
    let mut all = Behaviour::default().tables();
    for tables in &watched {
        all.iter_mut().zip(tables).for_each(|(all, table)| all.join(table));
    }
    Ok(all.iter().map(Counted::of).collect())
}

impl Counted {
    fn of(table: &Table) -> Counted {
        let (cells, exercised) = table.counts();
        let empty = table.cells().filter(|(_, seen)| !seen).map(|(name, _)| name);
        Counted { table: table.name.to_string(), cells, exercised, empty: empty.collect() }
    }
}

impl Behaviour {
    /// A step was made.
    pub fn stepped(&mut self, before: &Before, answer: &Answer, after: &Processor) {
        let Before { processor, instruction, rom } = before;
        let executed = matches!(answer, Answer::Ended | Answer::Trapped(_));
        let instruction = instruction.filter(|_| executed);
        self.step(&Step { before: processor, instruction, answer, after, rom: *rom });
    }

    pub fn step(&mut self, step: &Step) {
        self.operands.step(step);
        self.control.step(step);
        self.accesses.step(step);
    }

    pub fn scene(&mut self, vram: &[u8], drawing: &Drawing, frame: u32) {
        let Drawing { spt, gplt, jplt, bkcol } = *drawing;
        let drawing = DrawingRegisters { spt, gplt, jplt, bkcol };
        self.objects.scene(vram, &drawing, frame, &mut self.worlds);
    }

    /// All tables, always in the same order.
    fn tables(&self) -> Vec<Table> {
        let parts = [
            self.operands.tables(),
            self.control.tables(),
            self.accesses.tables(),
            self.worlds.tables(),
            self.objects.tables(),
        ];
        parts.into_iter().flatten().collect()
    }

    /// Each table, its cells counted.
    pub fn counted(&self) -> Vec<Counted> {
        self.tables().iter().map(Counted::of).collect()
    }
}

/// All cells, and those that were exercised.
pub fn total(tables: &[Counted]) -> (usize, usize) {
    let sum = |count: fn(&Counted) -> usize| tables.iter().map(count).sum();
    (sum(|table| table.cells), sum(|table| table.exercised))
}

/// A line for each table, then the empty cells of each by name.
pub fn text(tables: &[Counted]) -> String {
    let (cells, exercised) = total(tables);
    let (all, seen) = (grouped(cells as u64), grouped(exercised as u64));
    let mut text = format!("behaviour: {seen} of {all} cells of {} tables\n", tables.len());
    for Counted { table, cells, exercised, .. } in tables {
        text += &format!("  {table}: {exercised} of {cells}\n");
    }
    for Counted { table, empty, .. } in tables.iter().filter(|table| !table.empty.is_empty()) {
        text += &format!("empty in {table}:\n");
        text.extend(empty.iter().map(|cell| format!("  {cell}\n")));
    }
    text
}

#[cfg(test)]
mod tests;
