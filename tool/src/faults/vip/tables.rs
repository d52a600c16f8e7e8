//! World and object records as they stand in VRAM, and what a fault changes where they are read.

use super::bits::Bits;

/// The halfwords of a world record that drawing reads.
pub type World = [u16; 11];
/// An object's record.
pub type Object = [u16; 4];

/// BGM.
pub const NORMAL: u16 = 0;
pub const H_BIAS: u16 = 1;
pub const AFFINE: u16 = 2;
pub const OBJECTS: u16 = 3;

/// LON and RON, by eye.
pub const SHOWN: [u16; 2] = [0x8000, 0x4000];
pub const OVER: u16 = 0x80;
pub const END: u16 = 0x40;

pub const WORLD_TABLE: usize = 0x3D800;
pub const OBJECT_TABLE: usize = 0x3E000;

/// A fault where records are read.
#[derive(Clone, Debug, PartialEq)]
pub enum Table {
    /// Bits of a halfword of every world.
    World { half: usize, bits: Bits },
    /// The number of the record that is read for a world.
    WorldNumber(Bits),
    /// Bits of a halfword come from the record after, or before.
    WorldNeighbour { half: usize, mask: u16, after: bool },
    /// One world is passed over.
    WorldLost(usize),
    /// Bits of a halfword of every object.
    Object { half: usize, bits: Bits },
    /// The number of the record that is read for an object.
    ObjectNumber(Bits),
    /// Bits of a halfword come from the record after, or before.
    ObjectNeighbour { half: usize, mask: u16, after: bool },
    /// A signed field of every world's halfword, the lowest bits of this mask, is negated.
    WorldNegated { half: usize, mask: u16 },
    /// The same for objects.
    ObjectNegated { half: usize, mask: u16 },
    /// One eye reads bits of a halfword as 0.
    WorldZero { half: usize, mask: u16, eye: usize },
    /// The same for objects.
    ObjectZero { half: usize, mask: u16, eye: usize },
    /// One eye of H-bias (or affine) worlds has its parameters so many halfwords further on.
    Parameters { h_bias: i32, affine: i32, eye: usize },
}

fn half(vram: &[u8], address: usize) -> u16 {
    u16::from_le_bytes([vram[address], vram[address + 1]])
}

/// All world records.
pub fn worlds(vram: &[u8]) -> Vec<World> {
    let one = |n: usize| std::array::from_fn(|h| half(vram, WORLD_TABLE + 32 * n + 2 * h));
    (0..32).map(one).collect()
}

/// All object records.
pub fn objects(vram: &[u8]) -> Vec<Object> {
    let one = |n: usize| std::array::from_fn(|h| half(vram, OBJECT_TABLE + 8 * n + 2 * h));
    (0..1_024).map(one).collect()
}

/// Takes the bits of a mask from another record.
fn taken(own: u16, other: u16, mask: u16) -> u16 {
    own & !mask | other & mask
}

/// A field at the lowest bits, negated in its width.
fn negated(value: u16, mask: u16) -> u16 {
    taken(value, value.wrapping_neg(), mask)
}

/// The record after or before, of a table that wraps.
fn beside(number: usize, after: bool, length: usize) -> usize {
    (if after { number + 1 } else { number + length - 1 }) % length
}

impl Table {
    /// The worlds as a die reads them; nothing where they are read as they are.
    pub fn worlds(&self, worlds: &[World]) -> Option<Vec<World>> {
        let mut read = worlds.to_vec();
        for (number, world) in read.iter_mut().enumerate() {
            match *self {
                Table::World { half, bits } => world[half] = bits.apply(world[half]),
                Table::WorldNumber(bits) => *world = worlds[usize::from(bits.apply(number as u16))],
                Table::WorldNeighbour { half, mask, after } => {
                    let other = worlds[beside(number, after, worlds.len())];
                    world[half] = taken(world[half], other[half], mask);
                }
                Table::WorldNegated { half, mask } => world[half] = negated(world[half], mask),
                _ => return None,
            }
        }
        Some(read)
    }

    /// The objects as a die reads them; nothing where they are read as they are.
    pub fn objects(&self, objects: &[Object]) -> Option<Vec<Object>> {
        let mut read = objects.to_vec();
        for (number, object) in read.iter_mut().enumerate() {
            match *self {
                Table::Object { half, bits } => object[half] = bits.apply(object[half]),
                Table::ObjectNumber(bits) => {
                    *object = objects[usize::from(bits.apply(number as u16))];
                }
                Table::ObjectNeighbour { half, mask, after } => {
                    let other = objects[beside(number, after, objects.len())];
                    object[half] = taken(object[half], other[half], mask);
                }
                Table::ObjectNegated { half, mask } => object[half] = negated(object[half], mask),
                _ => return None,
            }
        }
        Some(read)
    }

    /// A background world's record as each eye reads it.
    pub fn world_of_eye(&self, world: World, of: usize) -> World {
        let mut read = world;
        match *self {
            Table::WorldZero { half, mask, eye } if eye == of => read[half] &= !mask,
            Table::Parameters { h_bias, affine, eye } if eye == of => {
                let further = match world[0] >> 12 & 3 {
                    H_BIAS => h_bias,
                    AFFINE => affine,
                    _ => 0,
                };
                read[9] = (i32::from(world[9]) + further) as u16;
            }
            _ => {}
        }
        read
    }

    /// An object's record as each eye reads it.
    pub fn object_of_eye(&self, object: Object, of: usize) -> Object {
        let mut read = object;
        if let Table::ObjectZero { half, mask, eye } = *self {
            if eye == of {
                read[half] &= !mask;
            }
        }
        read
    }
}
