//! A machine with its memories.
#![allow(dead_code)]

use model::bus::{load_byte, load_half, load_word, store_byte, store_half, store_word};
use model::processor::{run, step};
use model::{
    DrawingRegisters, Loaded, Memories, Processor, ReadMemories, Refusal, StepAnswer, Stepped,
};

pub const NOP: u16 = 0x9A00;

pub struct Machine {
    pub rom: Vec<u8>,
    pub wram: Vec<u8>,
    pub vram: Vec<u8>,
    pub pak: Vec<u8>,
    pub processor: Processor,
    pub drawing: DrawingRegisters,
}

impl Machine {
    /// A ROM of 1,024 zeros, and WRAM and VRAM of zeros.
    pub fn zeroed(pak: usize) -> Machine {
        Machine {
            rom: vec![0; 1_024],
            wram: vec![0; 65_536],
            vram: vec![0; 262_144],
            pak: vec![0; pak],
            processor: Processor::default(),
            drawing: DrawingRegisters::default(),
        }
    }

    /// A machine whose program starts in WRAM.
    pub fn new(program: &[u16]) -> Machine {
        let mut machine = Machine::zeroed(0);
        put(&mut machine.wram, program);
        machine.processor.pc = 0x0500_0000;
        machine
    }

    /// The same; ROM is NOPs, so the handlers are too.
    pub fn with_handlers(program: &[u16]) -> Machine {
        let mut machine = Machine::new(program);
        put(&mut machine.rom, &[NOP; 512]);
        machine
    }

    /// The memories and the records that a call takes.
    pub fn borrowed(&mut self) -> (Memories<'_>, &mut Processor, &mut DrawingRegisters) {
        let Machine { rom, wram, vram, pak, processor, drawing } = self;
        (Memories { rom, wram, vram, pak }, processor, drawing)
    }

    pub fn read(&self) -> ReadMemories<'_> {
        ReadMemories { rom: &self.rom, wram: &self.wram, vram: &self.vram, pak: &self.pak }
    }

    pub fn stepped(&mut self) -> Result<Stepped, Refusal> {
        let (mut memories, processor, drawing) = self.borrowed();
        step(&mut memories, processor, drawing)
    }

    pub fn step(&mut self) -> Result<StepAnswer, Refusal> {
        self.stepped().map(|stepped| stepped.answer)
    }

    pub fn run(&mut self, budget: u64) -> (u64, Option<Refusal>) {
        let (mut memories, processor, drawing) = self.borrowed();
        let ran = run(&mut memories, processor, drawing, budget);
        (ran.count, ran.refusal)
    }

    pub fn load(&self, bytes: u32, address: u32) -> Loaded {
        let load = match bytes {
            1 => load_byte,
            2 => load_half,
            _ => load_word,
        };
        load(&self.read(), &self.drawing, &self.processor.hardware, address).unwrap()
    }

    pub fn store(&mut self, bytes: u32, address: u32, value: u32) {
        let store = match bytes {
            1 => store_byte,
            2 => store_half,
            _ => store_word,
        };
        let (mut memories, processor, drawing) = self.borrowed();
        store(&mut memories, drawing, &mut processor.hardware, address, value).unwrap();
    }
}

/// Puts halfwords at the start of a memory.
fn put(memory: &mut [u8], halves: &[u16]) {
    for (bytes, half) in memory.chunks_exact_mut(2).zip(halves) {
        bytes.copy_from_slice(&half.to_le_bytes());
    }
}
