//! 01 "Refusal numbers", and those that 02's requests add.

use crate::bus::DrawingRegisters;

/// Why a call did nothing. The order is the order of the specification's numbers: the
/// lowest whose condition holds is given, but for W10's 14, which comes before 6.
#[derive(Clone, Copy, Debug, PartialEq, Eq, PartialOrd, Ord, Hash)]
pub enum Refusal {
    /// ROM length isn't a power of two from 1,024 to 16,777,216.
    RomLength = 1,
    /// WRAM length isn't 65,536.
    WramLength = 2,
    /// VRAM length isn't 262,144.
    VramLength = 3,
    /// Pak RAM length is neither 0 nor a power of two up to 16,777,216.
    PakLength = 4,
    /// A register holds what it cannot hold.
    Register = 5,
    /// The next instruction isn't modelled.
    NotModelled = 6,
    /// Frame number above 1.
    Frame = 7,
    /// Strip above 27, or character above 2,047.
    StripOrCharacter = 8,
    /// W1: the output buffer or the file does not have the required length.
    FileLength = 9,
    /// W1: the file's bytes aren't what the writer makes.
    FileBytes = 10,
    /// W7: more than 256 accesses, or a size that isn't 1, 2 or 4.
    AccessList = 11,
    /// W8: no instruction that can be encoded.
    Encoding = 12,
    /// W9: a target that isn't the probe's.
    ProbeTarget = 13,
    /// W10: the trace's length isn't a multiple of 16.
    TraceLength = 14,
    /// W11: an eye, a start or an output buffer that the display can't have.
    Display = 15,
    /// W12: lines and timer aren't at reset.
    NotAtReset = 16,
    /// W13: no form 2 layout has this length.
    NoLayout = 17,
}

impl Refusal {
    /// The specification's number.
    pub fn number(self) -> u32 {
        self as u32
    }

    /// The specification's row, for a person.
    pub fn sentence(self) -> &'static str {
        match self {
            Refusal::RomLength => "ROM length isn't a power of two from 1,024 to 16,777,216",
            Refusal::WramLength => "WRAM length isn't 65,536",
            Refusal::VramLength => "VRAM length isn't 262,144",
            Refusal::PakLength => "pak RAM length is neither 0 nor a power of two up to 16,777,216",
            Refusal::Register => "a register holds a value it cannot hold",
            Refusal::NotModelled => "the next instruction isn't modelled",
            Refusal::Frame => "frame number above 1",
            Refusal::StripOrCharacter => "strip above 27, or character above 2,047",
            Refusal::FileLength => "output buffer or file isn't of the length that is due",
            Refusal::FileBytes => "the file's bytes aren't what the writer makes",
            Refusal::AccessList => "more than 256 accesses, or a size that isn't 1, 2 or 4",
            Refusal::Encoding => "no instruction that can be encoded",
            Refusal::ProbeTarget => "the target isn't one of the probe's",
            Refusal::TraceLength => "the trace's length isn't a multiple of 16",
            Refusal::Display => {
                "eye above 1, start not 95 to 255, or output buffer not 86,016 bytes"
            }
            Refusal::NotAtReset => "request lines or timer aren't at reset",
            Refusal::NoLayout => "no form 2 layout has this length",
        }
    }
}

/// `Err(refusal)` unless `holds`.
pub fn refuse_unless(holds: bool, refusal: Refusal) -> Result<(), Refusal> {
    if holds {
        Ok(())
    } else {
        Err(refusal)
    }
}

/// The length of WRAM (refusal 2).
pub const WRAM_LENGTH: usize = 65_536;
/// The length of VRAM (refusal 3).
pub const VRAM_LENGTH: usize = 262_144;
/// The least length of ROM (refusal 1).
pub const ROM_LEAST: usize = 1_024;
/// The largest length of ROM and of pak RAM (refusals 1 and 4).
pub const PAK_LARGEST: usize = 16_777_216;

/// Refusal 1.
pub fn check_rom(length: usize) -> Result<(), Refusal> {
    let legal = length.is_power_of_two() && (ROM_LEAST..=PAK_LARGEST).contains(&length);
    refuse_unless(legal, Refusal::RomLength)
}

/// Refusal 2.
pub fn check_wram(length: usize) -> Result<(), Refusal> {
    refuse_unless(length == WRAM_LENGTH, Refusal::WramLength)
}

/// Refusal 3.
pub fn check_vram(length: usize) -> Result<(), Refusal> {
    refuse_unless(length == VRAM_LENGTH, Refusal::VramLength)
}

/// Refusal 4. Length 1 is a power of two.
pub fn check_pak(length: usize) -> Result<(), Refusal> {
    let legal = length == 0 || (length.is_power_of_two() && length <= PAK_LARGEST);
    refuse_unless(legal, Refusal::PakLength)
}

/// Refusal 5 for the drawing registers: "a drawing register exceeds its width".
pub fn check_drawing(drawing: &DrawingRegisters) -> Result<(), Refusal> {
    refuse_unless(drawing.within_widths(), Refusal::Register)
}

#[cfg(test)]
mod tests {
    use super::*;

    #[test]
    fn both_sides_of_each_length() {
        for (length, legal) in [(0, false), (512, false), (1_023, false), (1_024, true)] {
            assert_eq!(check_rom(length).is_ok(), legal, "ROM {length}");
        }
        for (length, legal) in [(1_536, false), (16_777_216, true), (33_554_432, false)] {
            assert_eq!(check_rom(length).is_ok(), legal, "ROM {length}");
        }
        for (length, legal) in [(0, true), (1, true), (2, true), (3, false), (4, true)] {
            assert_eq!(check_pak(length).is_ok(), legal, "pak RAM {length}");
        }
        for (length, legal) in [(16_777_215, false), (16_777_216, true), (33_554_432, false)] {
            assert_eq!(check_pak(length).is_ok(), legal, "pak RAM {length}");
        }
        assert!(check_wram(65_535).is_err() && check_wram(65_536).is_ok());
        assert!(check_vram(262_145).is_err() && check_vram(262_144).is_ok());
    }

    #[test]
    fn numbers() {
        assert_eq!(Refusal::RomLength.number(), 1);
        assert_eq!(Refusal::StripOrCharacter.number(), 8);
        assert_eq!(Refusal::FileLength.number(), 9);
        assert_eq!(Refusal::NoLayout.number(), 17);
        assert!(Refusal::RomLength < Refusal::WramLength);
    }
}
