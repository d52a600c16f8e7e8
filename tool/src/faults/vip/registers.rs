//! Faults of the drawing registers and of the characters' memory.

use vb::Drawing;

use super::bits::Bits;

/// A fault of a register.
#[derive(Clone, Debug, PartialEq)]
pub enum Register {
    Spt(usize, Bits),
    Gplt(usize, Bits),
    Jplt(usize, Bits),
    Bkcol(Bits),
    /// Two palettes, or two SPT, change places.
    GpltExchanged(usize, usize),
    JpltExchanged(usize, usize),
    SptExchanged(usize, usize),
    /// Objects use the background's palettes, or the other way round.
    ObjectsUseGplt,
    BackgroundsUseJplt,
}

impl Register {
    pub fn read(&self, drawing: &Drawing) -> Drawing {
        let mut read = *drawing;
        match *self {
            Register::Spt(n, bits) => read.spt[n] = bits.apply(read.spt[n]),
            Register::Gplt(n, bits) => read.gplt[n] = bits.apply(read.gplt[n]),
            Register::Jplt(n, bits) => read.jplt[n] = bits.apply(read.jplt[n]),
            Register::Bkcol(bits) => read.bkcol = bits.apply(read.bkcol),
            Register::GpltExchanged(a, b) => read.gplt.swap(a, b),
            Register::JpltExchanged(a, b) => read.jplt.swap(a, b),
            Register::SptExchanged(a, b) => read.spt.swap(a, b),
            Register::ObjectsUseGplt => read.jplt = read.gplt,
            Register::BackgroundsUseJplt => read.gplt = read.jplt,
        }
        read
    }
}

/// A fault where characters are read, by worlds and by objects.
#[derive(Clone, Debug, PartialEq)]
pub enum Character {
    /// The character's number, 11 bits.
    Number(Bits),
    /// The row in the character after the flip, 3 bits.
    Row(Bits),
    /// The column in the character after the flip, 3 bits.
    Column(Bits),
    /// The row's halfword.
    Data(Bits),
}

fn address(character: usize) -> usize {
    0x6000 + character / 512 * 0x8000 + 16 * (character % 512)
}

fn row_address(row: usize) -> usize {
    address(row / 8) + 2 * (row % 8)
}

impl Character {
    /// The halfword that is read for a row of a character, both in one number.
    fn row(&self, vram: &[u8], row: usize) -> u16 {
        let at = match self {
            Character::Number(bits) => 8 * usize::from(bits.apply((row / 8) as u16)) + row % 8,
            Character::Row(bits) => row & !7 | usize::from(bits.apply((row % 8) as u16)),
            _ => row,
        };
        let half = u16::from_le_bytes([vram[row_address(at)], vram[row_address(at) + 1]]);
        match self {
            Character::Data(bits) => bits.apply(half),
            Character::Column(bits) => (0..8u16).fold(0, |read, column| {
                read | (half >> (2 * bits.apply(column)) & 3) << (2 * column)
            }),
            _ => half,
        }
    }

    /// Puts the characters as they are read into a copy of VRAM.
    pub fn read(&self, vram: &[u8], copy: &mut [u8]) {
        for row in 0..8 * 2_048 {
            let half = self.row(vram, row);
            copy[row_address(row)..][..2].copy_from_slice(&half.to_le_bytes());
        }
    }
}

/// Puts each dot of the characters through a function.
pub fn map_dots(vram: &mut [u8], dot: impl Fn(u16) -> u16) {
    let byte =
        |byte: usize| (0..4).fold(0, |all, n| all | dot((byte >> (2 * n) & 3) as u16) << (2 * n));
    let bytes: Vec<u8> = (0..256).map(|n| byte(n) as u8).collect();
    for table in [0x6000, 0xE000, 0x16000, 0x1E000] {
        for own in &mut vram[table..table + 0x2000] {
            *own = bytes[usize::from(*own)];
        }
    }
}

/// Puts the characters back.
pub fn restore(vram: &mut [u8], from: &[u8]) {
    for table in [0x6000, 0xE000, 0x16000, 0x1E000] {
        vram[table..table + 0x2000].copy_from_slice(&from[table..table + 0x2000]);
    }
}
