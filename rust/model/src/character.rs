//! Characters and palettes: 01 "Drawing"; 000 "Characters" and "Palettes".

use crate::deviation::{Deviation, Exact};
use crate::number::{bit, field, half_at};
use crate::refusal::{check_vram, refuse_unless, Refusal};

/// Characters in VRAM.
pub const CHARACTERS: u32 = 2_048;
/// Bytes of a character.
pub const CHARACTER_LENGTH: usize = 16;

/// 01: "Character c: 16 bytes at 0x6000 + (c / 512) * 0x8000 + 16(c mod 512)".
pub fn character_address(character: u32) -> usize {
    let character = character as usize;
    0x6000 + (character / 512) * 0x8000 + 16 * (character % 512)
}

/// The character's 16 bytes as a part of the caller's VRAM; refusals 3, then 8.
pub fn character(vram: &[u8], character: u32) -> Result<&[u8], Refusal> {
    check_vram(vram.len())?;
    refuse_unless(character < CHARACTERS, Refusal::StripOrCharacter)?;
    let address = character_address(character);
    Ok(&vram[address..address + CHARACTER_LENGTH])
}

/// One pixel of a character as a cell or an object shows it. Both have the
/// same halfword: 15-14 palette, 13 horizontal flip, 12 vertical, 10-0
/// character.
#[derive(Clone, Copy, Debug, PartialEq, Eq)]
pub struct Dot {
    pub character: u32,
    pub character_address: usize,
    /// The character row's halfword: two of the bytes the pixel answers to.
    pub row_address: usize,
    pub flipped_horizontally: bool,
    pub flipped_vertically: bool,
    /// Which of the four palettes of its kind.
    pub palette: usize,
    /// The value before the palette; 0 is transparent.
    pub value: u8,
}

/// The dot at `column` and `row`, each 0 to 7, of what `attributes` names.
pub fn dot(vram: &[u8], attributes: u16, column: u32, row: u32) -> Dot {
    dot_by(&Exact, vram, attributes, column, row)
}

/// The dot as a die reads it.
pub fn dot_by(by: &impl Deviation, vram: &[u8], attributes: u16, column: u32, row: u32) -> Dot {
    let attributes = u32::from(attributes);
    let character = by.character(field(attributes, 0, 11));
    let flipped_horizontally = bit(attributes, 13);
    let flipped_vertically = bit(attributes, 12);
    let column = if flipped_horizontally { 7 - column } else { column };
    let row = if flipped_vertically { 7 - row } else { row };
    let character_address = character_address(character);
    let row_address = character_address + 2 * row as usize;
    let pixels = u32::from(by.character_row(half_at(vram, row_address)));
    Dot {
        character,
        character_address,
        row_address,
        flipped_horizontally,
        flipped_vertically,
        palette: field(attributes, 14, 2) as usize,
        value: field(pixels, 2 * column, 2) as u8,
    }
}

/// "Value 0 is transparent; else value v is bits 2v and 2v + 1 of the palette."
pub fn shade(palette: u16, value: u8) -> Option<u8> {
    (value != 0).then(|| field(u32::from(palette), 2 * u32::from(value), 2) as u8)
}
