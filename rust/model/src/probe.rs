//! The probe that shares VRAM (W9): writes of the bench's overlay painter into
//! characters 1,536 to 2,047 and background maps 12 and 13, and nowhere else.

use crate::bus::{place_of, Place};
use crate::instruction::Width;
use crate::refusal::{check_pak, check_rom, check_vram, check_wram, Refusal};

/// The caller's memories for a probe's write; only VRAM can change.
#[derive(Debug)]
pub struct ProbeMemories<'a> {
    pub rom: &'a [u8],
    pub wram: &'a [u8],
    pub vram: &'a mut [u8],
    pub pak: &'a [u8],
}

impl ProbeMemories<'_> {
    /// Refusals 1 to 4.
    fn check(&self) -> Result<(), Refusal> {
        check_rom(self.rom.len())?;
        check_wram(self.wram.len())?;
        check_vram(self.vram.len())?;
        check_pak(self.pak.len())
    }
}

/// Whether an offset in VRAM is the probe's to write: "characters 1,536 to
/// 2,047", the fourth table, "and background maps 12 and 13".
pub fn is_in_ranges(offset: usize) -> bool {
    let fourth_table = 0x1E000..0x20000;
    let maps = 0x20000 + 8_192 * 12..0x20000 + 8_192 * 14;
    fourth_table.contains(&offset) || maps.contains(&offset)
}

/// Where an aligned access of the bus puts its first byte, if that is one of the
/// probe's. Both ends of the ranges are multiples of 4, so that the other bytes
/// follow it.
pub fn target(address: u32, width: Width) -> Option<usize> {
    let first = address & !(width.bytes() - 1);
    // the lengths of ROM and pak RAM have no say in where VRAM is
    match place_of(first, 1_024, 0) {
        Place::Vram(offset) if is_in_ranges(offset) => Some(offset),
        _ => None,
    }
}

/// Writes the low 8, 16 or 32 bits of `value`, lowest byte first; refusals 1 to
/// 4, then 13.
pub fn probe(
    memories: &mut ProbeMemories,
    width: Width,
    address: u32,
    value: u32,
) -> Result<(), Refusal> {
    memories.check()?;
    let offset = target(address, width).ok_or(Refusal::ProbeTarget)?;
    let bytes = width.bytes() as usize;
    memories.vram[offset..offset + bytes].copy_from_slice(&value.to_le_bytes()[..bytes]);
    Ok(())
}
