//! Where the drawing of a die may deviate, for tests of the tool's fault list: each place has a function, and what the
//! papers say is its default. [`Exact`] deviates nowhere.

use std::ops::Range;

use crate::bus::DrawingRegisters;
use crate::world::{Eye, World, WorldKind};

/// What a die makes of a value that drawing uses.
pub trait Deviation {
    /// Halfword `n` of a world's record.
    fn world_half(&self, _n: usize, half: u16) -> u16 {
        half
    }

    /// A background world's fields, for an eye.
    fn world(&self, world: World, _eye: Eye) -> World {
        world
    }

    /// Whether the world with END is drawn, too.
    fn draws_end(&self) -> bool {
        false
    }

    /// Halfword `n` of an object's record.
    fn object_half(&self, _n: usize, half: u16) -> u16 {
        half
    }

    /// The registers.
    fn registers(&self, drawing: DrawingRegisters) -> DrawingRegisters {
        drawing
    }

    /// The group after a group.
    fn next_group(&self, group: usize) -> usize {
        if group == 0 {
            3
        } else {
            group - 1
        }
    }

    /// How many objects a group has, and how many it would have.
    fn group_length(&self, _drawing: &DrawingRegisters, _group: usize, length: u32) -> u32 {
        length
    }

    /// The unclipped columns of a background world's window.
    fn columns(&self, _world: &World, columns: Range<i32>) -> Range<i32> {
        columns
    }

    /// The unclipped rows of a background world's window.
    fn rows(&self, _world: &World, rows: Range<i32>) -> Range<i32> {
        rows
    }

    /// Parameter `n` of a row.
    fn parameter(&self, _kind: WorldKind, _eye: Eye, _n: i32, half: u16) -> u16 {
        half
    }

    /// The whole pixels of an affine source's x or y in 512ths.
    fn whole(&self, _x: bool, along: i64) -> i64 {
        along.div_euclid(512)
    }

    /// The number of the map.
    fn map(&self, number: i32) -> i32 {
        number
    }

    /// The number of the cell in its map.
    fn cell_number(&self, number: i32) -> i32 {
        number
    }

    /// The cell.
    fn cell(&self, cell: u16) -> u16 {
        cell
    }

    /// The number of the character.
    fn character(&self, number: u32) -> u32 {
        number
    }

    /// A character row's halfword.
    fn character_row(&self, half: u16) -> u16 {
        half
    }

    /// What a value of a palette paints, of what it should paint.
    fn shade(&self, _palette: u16, _value: u8, shade: Option<u8>) -> Option<u8> {
        shade
    }

    /// Whether an object is drawn whose left edge is here.
    fn draws_object(&self, _left: i32) -> bool {
        true
    }

    /// Where halfword `number` of an image is stored, and what.
    fn stored(&self, _eye: Eye, number: usize, half: u16) -> Option<(usize, u16)> {
        Some((number, half))
    }
}

/// No deviation.
pub struct Exact;

impl Deviation for Exact {}
