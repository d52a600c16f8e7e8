//! The probe: writes of the bench's overlay painter into the program's VRAM.

use vbsys::{Memories, ProbeMemories};

use crate::refusal::Refusal;

/// How many bytes a write has.
#[derive(Clone, Copy, Debug, PartialEq, Eq)]
pub enum Width {
    /// One byte.
    Byte,
    /// Two bytes.
    Half,
    /// Four bytes.
    Word,
}

/// What the probe can write to: memories that it may write VRAM of.
pub trait Probe {
    /// Writes the low 8, 16 or 32 bits of `value` at a bus address, whose bits below the width are dropped. Characters
    /// 1,536 to 2,047 and background maps 12 and 13 alone can be written, by any mirror.
    fn probe(&mut self, width: Width, address: u32, value: u32) -> Result<(), Refusal>;
}

impl Probe for ProbeMemories<'_> {
    fn probe(&mut self, width: Width, address: u32, value: u32) -> Result<(), Refusal> {
        let number = match width {
            Width::Byte => vbsys::probe_byte(self, address, value),
            Width::Half => vbsys::probe_half(self, address, value),
            Width::Word => vbsys::probe_word(self, address, value),
        };
        match number {
            0 => Ok(()),
            1 => Err(Refusal::RomLength { given: self.rom.len() }),
            2 => Err(Refusal::WramLength { given: self.wram.len() }),
            3 => Err(Refusal::VramLength { given: self.vram.len() }),
            4 => Err(Refusal::PakLength { given: self.pak.len() }),
            13 => Err(Refusal::ProbeTarget { address }),
            _ => unreachable!("the call has no refusal {number}"),
        }
    }
}

impl Probe for Memories<'_> {
    fn probe(&mut self, width: Width, address: u32, value: u32) -> Result<(), Refusal> {
        let Memories { rom, wram, vram, pak } = self;
        ProbeMemories { rom, wram, vram, pak }.probe(width, address, value)
    }
}
