//! Faults where a world's cells and parameters are read from VRAM.

use super::bits::Bits;
use super::tables::{World, AFFINE, H_BIAS};
use super::window::kind;

#[derive(Clone, Debug, PartialEq)]
pub enum Memory {
    /// Bits of every cell.
    Cell(Bits),
    /// The number of the map, 4 bits.
    MapNumber(Bits),
    /// The number of the cell in its map, 12 bits.
    MapCell(Bits),
    /// The maps of a background stand in columns, not in rows.
    MapsByColumns,
    /// The index of a parameter, 16 bits.
    ParameterIndex(Bits),
    /// H-bias offsets.
    HBias(Bits),
    /// One of the five parameters of an affine row.
    Affine { place: usize, bits: Bits },
    /// Two of the five change places.
    AffineExchanged(usize, usize),
    /// MP is negated in 16 bits.
    AffineMpNegated,
    /// An eye reads MP as 0.
    AffineMpZero { eye: usize },
}

impl Memory {
    /// Whether it changes what a world reads.
    pub fn changes(&self, world: &World) -> bool {
        match self {
            Memory::Cell(_) | Memory::MapNumber(_) | Memory::MapCell(_) => true,
            Memory::MapsByColumns => world[0] & 0x0C00 != 0 && world[0] & 0x0300 != 0,
            Memory::ParameterIndex(_) => [H_BIAS, AFFINE].contains(&kind(world)),
            Memory::HBias(_) => kind(world) == H_BIAS,
            _ => kind(world) == AFFINE,
        }
    }

    pub fn cell(&self, cell: u16) -> u16 {
        match self {
            Memory::Cell(bits) => bits.apply(cell),
            _ => cell,
        }
    }

    /// The map that is read for map `m` of a background.
    pub fn map(&self, world: &World, m: u16) -> usize {
        let (scx, scy) = (world[0] >> 10 & 3, world[0] >> 8 & 3);
        let m = match self {
            Memory::MapsByColumns if scx + scy <= 3 => {
                let (column, row) = (m & ((1 << scx) - 1), m >> scx);
                column << scy | row
            }
            _ => m,
        };
        let number = (world[0] + m) & 15;
        usize::from(match self {
            Memory::MapNumber(bits) => bits.apply(number),
            _ => number,
        })
    }

    /// The cell of a map that is read for a number.
    pub fn cell_number(&self, number: usize) -> usize {
        match self {
            Memory::MapCell(bits) => usize::from(bits.apply(number as u16)),
            _ => number,
        }
    }

    pub fn parameter_index(&self, index: u16) -> u16 {
        match self {
            Memory::ParameterIndex(bits) => bits.apply(index),
            _ => index,
        }
    }

    pub fn h_bias(&self, offset: u16) -> u16 {
        match self {
            Memory::HBias(bits) => bits.apply(offset),
            _ => offset,
        }
    }

    /// An affine row's five parameters.
    pub fn affine(&self, row: &mut [u16; 5], eye: Option<usize>) {
        match *self {
            Memory::Affine { place, bits } => row[place] = bits.apply(row[place]),
            Memory::AffineExchanged(a, b) => row.swap(a, b),
            Memory::AffineMpNegated => row[1] = row[1].wrapping_neg(),
            Memory::AffineMpZero { eye: of } if eye == Some(of) => row[1] = 0,
            _ => {}
        }
    }
}
