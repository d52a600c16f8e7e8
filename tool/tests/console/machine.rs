//! A machine at the C interface, with memories whose bytes are known.

use vbsys::{Drawing, Hardware, Memories, Processor, ReadMemories, Stepped};

/// Where a program stands in WRAM.
pub const PC: u32 = 0x0500_0100;

pub struct Machine {
    memories: [Vec<u8>; 4],
    before: [Vec<u8>; 4],
    drawing: Drawing,
    pub processor: Processor,
}

impl Machine {
    pub fn new() -> Machine {
        let rom = (0..2_048).map(|at| (at % 251) as u8).collect();
        let memories = [rom, vec![0; vb::WRAM_LENGTH], vec![0; vb::VRAM_LENGTH], vec![0; 64]];
        let mut processor = vbsys::reset().processor;
        (processor.pc, processor.psw) = (PC, 0);
        Machine { before: memories.clone(), memories, drawing: Drawing::default(), processor }
    }

    pub fn with_timer([lines, count, reload, control]: [u16; 4]) -> Machine {
        let mut machine = Machine::new();
        machine.processor.hardware = Hardware { lines, count, reload, control };
        machine
    }

    /// A machine whose next instruction is at PC.
    pub fn at(code: &[u8]) -> Machine {
        let mut machine = Machine::new();
        machine.memories[1][0x100..0x100 + code.len()].copy_from_slice(code);
        machine
    }

    pub fn rom(&self) -> &[u8] {
        &self.memories[0]
    }

    pub fn pak(&self) -> &[u8] {
        &self.memories[3]
    }

    fn read(&self) -> ReadMemories<'_> {
        let [rom, wram, vram, pak] = &self.memories;
        ReadMemories { rom, wram, vram, pak }
    }

    fn write(&mut self) -> Memories<'_> {
        let [rom, wram, vram, pak] = &mut self.memories;
        Memories { rom, wram, vram, pak }
    }

    /// The value and the mask of its undefined bytes.
    pub fn load_byte(&self, address: u32) -> (u32, u32) {
        let hardware = self.processor.hardware;
        let loaded = vbsys::load_byte(self.read(), self.drawing, hardware, address);
        assert_eq!(loaded.refusal, 0);
        (loaded.value, loaded.undefined)
    }

    pub fn load_half(&self, address: u32) -> (u32, u32) {
        let hardware = self.processor.hardware;
        let loaded = vbsys::load_half(self.read(), self.drawing, hardware, address);
        assert_eq!(loaded.refusal, 0);
        (loaded.value, loaded.undefined)
    }

    pub fn store_byte(&mut self, address: u32, value: u32) {
        let (drawing, hardware) = (self.drawing, self.processor.hardware);
        let stored = vbsys::store_byte(&mut self.write(), drawing, hardware, address, value);
        assert_eq!(stored.refusal, 0);
        (self.drawing, self.processor.hardware) = (stored.drawing, stored.hardware);
    }

    pub fn store_half(&mut self, address: u32, value: u32) {
        let (drawing, hardware) = (self.drawing, self.processor.hardware);
        let stored = vbsys::store_half(&mut self.write(), drawing, hardware, address, value);
        assert_eq!(stored.refusal, 0);
        (self.drawing, self.processor.hardware) = (stored.drawing, stored.hardware);
    }

    pub fn step(&mut self) -> Stepped {
        let (processor, drawing) = (self.processor, self.drawing);
        let stepped = vbsys::step(&mut self.write(), processor, drawing);
        (self.processor, self.drawing) = (stepped.processor, stepped.drawing);
        stepped
    }

    /// The first byte of a memory that a store has changed.
    pub fn changed(&self) -> Option<(&'static str, usize)> {
        let names = ["ROM", "WRAM", "VRAM", "pak RAM"];
        let places = self.memories.iter().zip(&self.before).zip(names);
        places.into_iter().find_map(|((now, before), name)| {
            let at = now.iter().zip(before).position(|(now, before)| now != before)?;
            Some((name, at))
        })
    }

    /// The 13 drawing registers.
    pub fn registers(&self) -> Vec<u16> {
        let Drawing { spt, gplt, jplt, bkcol } = self.drawing;
        spt.into_iter().chain(gplt).chain(jplt).chain([bkcol]).collect()
    }

    /// Lines, count, reload and control.
    pub fn timer(&self) -> [u16; 4] {
        let Hardware { lines, count, reload, control } = self.processor.hardware;
        [lines, count, reload, control]
    }
}

/// The timer after a tick.
pub fn ticked([lines, count, reload, control]: [u16; 4]) -> [u16; 4] {
    let ticked = vbsys::tick(Hardware { lines, count, reload, control });
    assert_eq!(ticked.refusal, 0);
    let Hardware { lines, count, reload, control } = ticked.hardware;
    [lines, count, reload, control]
}
