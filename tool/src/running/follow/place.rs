//! Where an address leads, in words.

use std::ops::RangeInclusive;

use model::bus::{place_of, Place};

use crate::inputs::setup::Bench;

/// A byte's place: which memory, and where in it. Mirrors of a byte have one place.
#[derive(Clone, Copy, Debug, PartialEq, Eq, Hash)]
pub struct At {
    pub memory: &'static str,
    pub offset: usize,
}

pub fn at(bench: &Bench, address: u32) -> At {
    let low = address as usize & 0x7_FFFF;
    let (memory, offset) = match place_of(address, bench.rom.len(), bench.pak.len()) {
        Place::Vram(offset) => ("VRAM", offset),
        Place::Register { .. } => ("register", low),
        Place::Unmapped => ("unmapped", low),
        Place::Timer(_) => ("timer", address as usize & 0xFF_FFFF),
        Place::Absent => ("no memory", address as usize & 0x7FF_FFFF),
        Place::Wram(offset) => ("WRAM", offset),
        Place::Pak(Some(offset)) => ("pak RAM", offset),
        Place::Pak(None) => ("no pak RAM", 0),
        Place::Rom(offset) => ("ROM", offset),
    };
    At { memory, offset }
}

impl At {
    pub fn text(&self) -> String {
        format!("{} 0x{:05X}", self.memory, self.offset)
    }
}

/// The places of a range of addresses, which must lie in one memory.
pub fn range(bench: &Bench, addresses: &RangeInclusive<u32>) -> Result<(At, usize), String> {
    let (first, last) = (at(bench, *addresses.start()), at(bench, *addresses.end()));
    let length = (addresses.end() - addresses.start()) as usize;
    if first.memory != last.memory || first.offset + length != last.offset {
        return Err(format!(
            "0x{:08X}..0x{:08X} does not lie in one memory: it goes from {} to {}",
            addresses.start(),
            addresses.end(),
            first.text(),
            last.text()
        ));
    }
    Ok((first, last.offset))
}
