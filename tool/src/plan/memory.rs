//! The memories that a part must hold when a test has ended.

use std::fmt;

use vb::{VRAM_LENGTH, WRAM_LENGTH};

use crate::inputs::number;
use crate::inputs::setup::Bench;
use crate::running::follow::place;

/// A memory, or a range of addresses in one.
#[derive(Clone, Copy, Debug, PartialEq, Eq)]
pub enum Region {
    Wram,
    Vram,
    Pak,
    Range { address: u32, length: u32 },
}

/// What the model's memory holds.
pub struct Memory {
    pub region: Region,
    /// The address of the first byte.
    pub address: u32,
    pub bytes: Vec<u8>,
}

pub const ALLOWED: &str =
    "a list of \"wram\", \"vram\", \"pak\" and ranges such as \"0x05000000+0x400\", each once";

impl Region {
    /// `wram`, or `0x05000000+0x400`
    pub fn of(text: &str) -> Result<Region, String> {
        let (address, length) = match text {
            "wram" => return Ok(Region::Wram),
            "vram" => return Ok(Region::Vram),
            "pak" => return Ok(Region::Pak),
            _ => text.split_once('+').ok_or_else(|| {
                format!("`{text}` is not a memory; it must be wram, vram, pak or ADDRESS+LENGTH")
            })?,
        };
        let (address, length) = (number::word(address)?, number::word(length)?);
        match length.checked_sub(1).and_then(|more| address.checked_add(more)) {
            Some(_) => Ok(Region::Range { address, length }),
            None => Err(format!("`{text}` has no byte, or goes beyond 0xFFFFFFFF")),
        }
    }

    /// The end of its file's name, after the test's and a dot.
    pub fn file(&self) -> String {
        match self {
            Region::Range { address, length } => format!("{address:08X}+{length:X}.bin"),
            named => named.to_string(),
        }
    }

    /// What the machine holds there; or why it cannot be asked for.
    pub fn read(&self, bench: &Bench) -> Result<Memory, String> {
        let (address, length) = match *self {
            Region::Wram => (0x0500_0000, WRAM_LENGTH as u32),
            Region::Vram => (0, VRAM_LENGTH as u32),
            Region::Pak if bench.pak.is_empty() => {
                return Err("memory asks for `pak`; the test has no pak RAM".to_string())
            }
            Region::Pak => (0x0600_0000, bench.pak.len() as u32),
            Region::Range { address, length } => (address, length),
        };
        let (first, last) = place::range(bench, &(address..=address + (length - 1)))
            .map_err(|wrong| format!("memory asks for {self}: {wrong}"))?;
        let memory = match first.memory {
            "WRAM" => &bench.wram,
            "VRAM" => &bench.vram,
            "pak RAM" => &bench.pak,
            other => {
                let rule = "it must lie in WRAM, VRAM or pak RAM";
                return Err(format!("memory asks for {self}, which is {other}; {rule}"));
            }
        };
        let bytes = memory[first.offset..=last].to_vec();
        Ok(Memory { region: *self, address, bytes })
    }
}

impl fmt::Display for Region {
    /// As a plan has it.
    fn fmt(&self, f: &mut fmt::Formatter) -> fmt::Result {
        match self {
            Region::Wram => f.write_str("wram"),
            Region::Vram => f.write_str("vram"),
            Region::Pak => f.write_str("pak"),
            Region::Range { address, length } => write!(f, "0x{address:08X}+0x{length:X}"),
        }
    }
}

#[cfg(test)]
mod tests {
    use super::*;

    #[test]
    fn a_region_is_a_memory_or_an_address_and_a_length() {
        for (text, file) in [
            ("wram", "wram"),
            ("0x05000000+0x400", "05000000+400.bin"),
            ("0x1_000+10", "00001000+A.bin"),
            ("0xFFFFFFFF+1", "FFFFFFFF+1.bin"),
        ] {
            assert_eq!(Region::of(text).unwrap().file(), file);
        }
        for text in ["WRAM", "rom", "5", "0+0", "0xFFFFFFFF+2", "x+1", "1+"] {
            assert!(Region::of(text).is_err(), "{text}");
        }
    }
}
