//! Objects and their groups: 01 "Objects"; 000 "Objects" and "Object Worlds".

use crate::bus::DrawingRegisters;
use crate::character::{dot, Dot};
use crate::deviation::{Deviation, Exact};
use crate::number::{bit, field, half_at, sign_extend};
use crate::world::Eye;

/// Objects in VRAM.
pub const OBJECTS: u32 = 1_024;
/// Where the object records start; 8 bytes each, up to 0x3FFFF (H).
pub const OBJECT_TABLE: usize = 0x3E000;

/// An object's record.
#[derive(Clone, Copy, Debug, PartialEq, Eq)]
pub struct Object {
    pub number: u32,
    pub jx: i32,
    pub jlon: bool,
    pub jron: bool,
    pub jp: i32,
    pub jy: i32,
    /// Palette, flips and character.
    pub attributes: u16,
}

impl Object {
    /// 01: "1,024 records of 8 bytes from 0x3E000".
    pub fn read(vram: &[u8], number: u32) -> Object {
        Object::read_by(&Exact, vram, number)
    }

    /// The record as a die reads it.
    pub fn read_by(by: &impl Deviation, vram: &[u8], number: u32) -> Object {
        let address = Object::address(number);
        let half = |n: usize| u32::from(by.object_half(n, half_at(vram, address + 2 * n)));
        Object {
            number,
            jx: sign_extend(half(0), 10),
            jlon: bit(half(1), 15),
            jron: bit(half(1), 14),
            jp: sign_extend(half(1), 10),
            jy: field(half(2), 0, 8) as i32,
            attributes: half(3) as u16,
        }
    }

    /// Where the record lies.
    pub fn address(number: u32) -> usize {
        OBJECT_TABLE + 8 * number as usize
    }

    /// R7. 000: "object visibility is determined entirely by object
    /// attributes"; the object world's LON and RON hide nothing.
    pub fn shown_to(&self, eye: Eye) -> bool {
        match eye {
            Eye::Left => self.jlon,
            Eye::Right => self.jron,
        }
    }

    /// "Left x is JX - JP, right JX + JP".
    pub fn start(&self, eye: Eye) -> i32 {
        eye.shifted(self.jx, self.jp)
    }

    /// The object's row at image row `y`: "row is (y - JY) mod 256, shown
    /// below 8".
    pub fn row(&self, y: i32) -> Option<u32> {
        let row = (y - self.jy).rem_euclid(256);
        (row < 8).then_some(row as u32)
    }

    /// The object's column at image column `x`.
    pub fn column(&self, eye: Eye, x: i32) -> Option<u32> {
        let column = x - self.start(eye);
        (0..8).contains(&column).then_some(column as u32)
    }

    /// The dot at a column and row of the object.
    pub fn dot(&self, vram: &[u8], column: u32, row: u32) -> Dot {
        dot(vram, self.attributes, column, row)
    }
}

/// The counter of object worlds: "initialized to 3", and back to 3 after 0.
#[derive(Clone, Copy, Debug, PartialEq, Eq)]
pub struct GroupCounter(usize);

impl GroupCounter {
    pub fn start() -> GroupCounter {
        GroupCounter(3)
    }

    /// The group that the next object world draws.
    pub fn take(&mut self) -> usize {
        self.take_by(&Exact)
    }

    /// The group that the next object world of a die draws.
    pub fn take_by(&mut self, by: &impl Deviation) -> usize {
        let group = self.0;
        self.0 = by.next_group(group);
        group
    }
}

/// How many objects a group has. 01: "Group n: SPTn downwards mod 1,024 to
/// just above SPT(n-1), 1,024 objects when equal (H); group 0 ends at object 0".
pub fn group_length(drawing: &DrawingRegisters, group: usize) -> u32 {
    let last = i32::from(drawing.spt[group]);
    if group == 0 {
        return last as u32 + 1;
    }
    let below = i32::from(drawing.spt[group - 1]);
    match (last - below).rem_euclid(1_024) {
        0 => 1_024,
        length => length as u32,
    }
}

/// The objects of a group in drawing order.
pub fn group_objects(drawing: &DrawingRegisters, group: usize) -> impl Iterator<Item = u32> {
    group_objects_by(&Exact, drawing, group)
}

/// The objects of a group as a die draws them.
pub fn group_objects_by(
    by: &impl Deviation,
    drawing: &DrawingRegisters,
    group: usize,
) -> impl Iterator<Item = u32> {
    let first = i32::from(drawing.spt[group]);
    let length = by.group_length(drawing, group, group_length(drawing, group)) as i32;
    (0..length).map(move |n| (first - n).rem_euclid(1_024) as u32)
}
