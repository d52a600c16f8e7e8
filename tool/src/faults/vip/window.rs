//! Where a background world's window lies, and faults of its edges.

use std::ops::Range;

use super::tables::{World, AFFINE, OVER, SHOWN};

/// An edge of a window.
#[derive(Clone, Copy, Debug, PartialEq, Eq)]
pub enum Side {
    Left,
    Right,
    Top,
    Bottom,
}

/// A fault of windows.
#[derive(Clone, Debug, PartialEq)]
pub enum Window {
    /// An edge of this kind's windows lies one pixel further out, or in.
    Edge { kind: u16, side: Side, outwards: bool },
    /// A window wholly left of the picture paints its last column at column 0.
    LastColumn,
    /// A window wholly above the picture paints its last row at row 0.
    LastRow,
    /// GX is read without its sign.
    LeftUnsigned,
    /// GY is read without its sign.
    TopUnsigned,
    /// H + 1 rows of this kind, whatever the strip.
    PlainHeight { kind: u16 },
    /// An affine source is rounded towards 0, along x or y.
    Truncated { x: bool },
}

/// Sign-extends the low `width` bits.
pub fn signed(half: u16, width: u32) -> i32 {
    i32::from(half) << (32 - width) >> (32 - width)
}

/// A window of one eye, unclipped.
#[derive(Clone, Copy, Debug, PartialEq)]
pub struct Extent {
    pub shown: bool,
    pub left: i32,
    pub columns: i32,
    pub top: i32,
    pub rows: i32,
    /// H + 1, or 0.
    pub plain_rows: i32,
}

/// BGM.
pub fn kind(world: &World) -> u16 {
    world[0] >> 12 & 3
}

impl Extent {
    pub fn of(world: &World, eye: usize) -> Extent {
        let (gx, gp) = (signed(world[1], 10), signed(world[2], 10));
        let (top, plain_rows) = (signed(world[3], 16), (signed(world[8], 16) + 1).max(0));
        let affine = kind(world) == AFFINE;
        let width = if affine { i32::from(world[7] & 0x3FF) } else { signed(world[7], 13) };
        let rest_of_strip = if !affine && (0..224).contains(&top) { 8 - top % 8 } else { 0 };
        Extent {
            shown: world[0] & SHOWN[eye] != 0,
            left: if eye == 0 { gx - gp } else { gx + gp },
            columns: (width + 1).max(0),
            top,
            rows: plain_rows.max(rest_of_strip),
            plain_rows,
        }
    }

    /// The rows of the picture that it has.
    pub fn visible_rows(&self) -> Range<i32> {
        self.top.max(0)..(self.top + self.rows).min(224)
    }

    /// The columns of the picture that it has.
    pub fn visible_columns(&self) -> Range<i32> {
        self.left.max(0)..(self.left + self.columns).min(384)
    }
}

/// A place of a background as a signed field holds it that reaches from -`limit` to below `limit`: the same cell and dot.
pub fn folded(place: i32, over: bool, limit: i32) -> i32 {
    match over {
        false => place.rem_euclid(4_096),
        true if (-limit..limit).contains(&place) => place,
        // outside: only the place in the cell counts
        true => place.rem_euclid(8) - 8,
    }
}

/// The world that paints at column `x` of the picture what the window has at its column `i`, for one eye.
pub fn column_of(world: &World, eye: usize, x: i32, i: i32) -> World {
    let mut one = *world;
    let (mx, mp) = (signed(world[4], 13), signed(world[5], 15));
    let source = if eye == 0 { mx - mp } else { mx + mp } + i;
    let source = match world[0] & OVER != 0 {
        false => source.rem_euclid(4_096),
        // with an H-bias of at most 4,096 it stays outside
        true if source.abs() > 20_000 => source.signum() * 16_384 + source.rem_euclid(8),
        true => source,
    };
    let near = source.clamp(-4_096, 4_095);
    let parallax = if eye == 0 { near - source } else { source - near };
    (one[1], one[2], one[7]) = (x as u16, 0, 0);
    (one[4], one[5]) = (near as u16, parallax as u16);
    one
}

/// The world that paints at row `y` of the picture, and perhaps below it, what the window has at its row `j`.
pub fn row_of(world: &World, y: i32, j: i32) -> World {
    let mut one = *world;
    let source = folded(signed(world[6], 13) + j, world[0] & OVER != 0, 4_096);
    let further = if kind(world) == AFFINE { 8 * j } else { 2 * j };
    (one[3], one[6], one[8]) = (y as u16, source as u16, 0);
    one[9] = (i32::from(world[9]) + further) as u16;
    one
}

impl Window {
    /// A background world's record as an eye reads it; nothing where the window is outside the picture.
    pub fn world_of_eye(&self, world: World, eye: usize) -> Option<World> {
        let mut read = world;
        match self {
            Window::LeftUnsigned if signed(world[1], 10) < 0 => {
                let left = Extent::of(&world, eye).left + 1_024;
                (read[1], read[2]) = (left.min(511) as u16, 0);
            }
            Window::TopUnsigned if signed(world[3], 16) < 0 => return None,
            _ => {}
        }
        Some(read)
    }

    /// Whether it changes what a world paints.
    pub fn changes(&self, world: &World) -> bool {
        match self {
            Window::Edge { kind: of, .. } | Window::PlainHeight { kind: of } => kind(world) == *of,
            Window::LastColumn | Window::LastRow => true,
            Window::LeftUnsigned | Window::TopUnsigned => false,
            Window::Truncated { .. } => kind(world) == AFFINE,
        }
    }
}
