//! Backgrounds: the map, the cell and the dot at a source position. 01
//! "Background"; 000 "Background Maps" and "Backgrounds".

use crate::character::{dot_by, Dot};
use crate::deviation::{Deviation, Exact};
use crate::number::half_at;
use crate::world::World;

/// Where the background maps start.
pub const MAPS: usize = 0x20000;
/// A map's side in pixels.
const MAP_SIDE: i32 = 512;

/// One position of a world's background.
#[derive(Clone, Copy, Debug, PartialEq, Eq)]
pub struct BackgroundDot {
    /// The source position, before it wraps.
    pub source: (i32, i32),
    /// Whether the position lies outside and OVER is set.
    pub overplane: bool,
    /// Where the cell's two bytes lie.
    pub cell_address: usize,
    pub cell: u16,
    pub dot: Dot,
}

/// R1 and R2: which of the 16 maps is at a column and row of maps.
///
/// R1. 000: a background of more than 8 maps is "the largest 8-map background
/// that can be expressed with the specified height", repeated to the right.
/// R2. 01 (H): map m is number (base + m) mod 16, base as stored.
pub fn map_number(world: &World, column: i32, row: i32) -> i32 {
    let (columns, rows) = (1 << world.scx, 1 << world.scy);
    let distinct_columns = if columns * rows <= 8 { columns } else { 8 / rows };
    let m = row * distinct_columns + column % distinct_columns;
    (world.base as i32 + m) % 16
}

/// 01: a map is 8,192 bytes, "64 cells a row"; x and y lie in the background.
fn cell_address(by: &impl Deviation, world: &World, x: i32, y: i32) -> usize {
    let map = by.map(map_number(world, x / MAP_SIDE, y / MAP_SIDE));
    let cell = by.cell_number(64 * (y % MAP_SIDE / 8) + x % MAP_SIDE / 8);
    MAPS + 8_192 * map as usize + 2 * cell as usize
}

/// The dot that a world's background has at source (x, y). 01: "OVER clear:
/// source wraps to that size; set: outside uses the cell at 0x20000 + 2 *
/// overplane".
pub fn background_dot(vram: &[u8], world: &World, source: (i32, i32)) -> BackgroundDot {
    background_dot_by(&Exact, vram, world, source)
}

/// The dot as a die reads it.
pub fn background_dot_by(
    by: &impl Deviation,
    vram: &[u8],
    world: &World,
    (x, y): (i32, i32),
) -> BackgroundDot {
    let (width, height) = (MAP_SIDE << world.scx, MAP_SIDE << world.scy);
    let inside = (0..width).contains(&x) && (0..height).contains(&y);
    let overplane = world.over && !inside;
    let cell_address = if overplane {
        MAPS + 2 * usize::from(world.overplane)
    } else {
        cell_address(by, world, x.rem_euclid(width), y.rem_euclid(height))
    };
    let cell = by.cell(half_at(vram, cell_address));
    let (column, row) = (x.rem_euclid(8) as u32, y.rem_euclid(8) as u32);
    let dot = dot_by(by, vram, cell, column, row);
    BackgroundDot { source: (x, y), overplane, cell_address, cell, dot }
}
