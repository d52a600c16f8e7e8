//! Memories for the tests.
#![allow(dead_code)]

use vb::{Memories, ReadMemories};

pub struct Bench {
    pub rom: Vec<u8>,
    pub wram: Vec<u8>,
    pub vram: Vec<u8>,
    pub pak: Vec<u8>,
}

impl Bench {
    /// Memories with bytes that differ from each other, and from those of another seed.
    pub fn of(pak: usize, seed: usize) -> Bench {
        let some = |n: usize| (0..n).map(|i| (i * 31 + seed) as u8).collect();
        Bench { rom: some(1024), wram: some(65_536), vram: some(262_144), pak: some(pak) }
    }

    pub fn read(&self) -> ReadMemories<'_> {
        ReadMemories { rom: &self.rom, wram: &self.wram, vram: &self.vram, pak: &self.pak }
    }

    pub fn memories(&mut self) -> Memories<'_> {
        Memories { rom: &self.rom, wram: &mut self.wram, vram: &mut self.vram, pak: &mut self.pak }
    }

    pub fn bytes(&self) -> [&[u8]; 4] {
        [&self.rom, &self.wram, &self.vram, &self.pak]
    }
}
