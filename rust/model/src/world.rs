//! Worlds: their record, their window, and where in the background each pixel
//! of the window comes from. 01 "Drawing"; 000 "World Attributes" and the
//! three kinds of background world.

use std::ops::Range;

use crate::deviation::{Deviation, Exact};
use crate::number::{bit, field, half_at, sign_extend};

/// Worlds in VRAM.
pub const WORLDS: u32 = 32;
/// Where the world records start; 32 bytes each.
pub const WORLD_TABLE: usize = 0x3D800;
/// The image's width and height.
pub const WIDTH: i32 = 384;
pub const HEIGHT: i32 = 224;

/// Frame images are drawn for two eyes (0 left, 1 right).
#[derive(Clone, Copy, Debug, PartialEq, Eq, Hash)]
pub enum Eye {
    Left,
    Right,
}

impl Eye {
    pub const BOTH: [Eye; 2] = [Eye::Left, Eye::Right];

    /// 01's number of the eye.
    pub fn number(self) -> u32 {
        match self {
            Eye::Left => 0,
            Eye::Right => 1,
        }
    }

    /// Parallax: left is `position` - `parallax`, right `position` + `parallax`.
    pub fn shifted(self, position: i32, parallax: i32) -> i32 {
        match self {
            Eye::Left => position - parallax,
            Eye::Right => position + parallax,
        }
    }
}

/// BGM.
#[derive(Clone, Copy, Debug, PartialEq, Eq)]
pub enum WorldKind {
    Normal,
    HBias,
    Affine,
    Object,
}

/// A world's record, each field read with its width and sign.
#[derive(Clone, Copy, Debug, PartialEq, Eq)]
pub struct World {
    pub number: u32,
    pub lon: bool,
    pub ron: bool,
    pub kind: WorldKind,
    /// log2 of the background's width in maps.
    pub scx: u32,
    /// log2 of the background's height in maps.
    pub scy: u32,
    pub over: bool,
    pub end: bool,
    /// BG Map Base.
    pub base: u32,
    pub gx: i32,
    pub gp: i32,
    pub gy: i32,
    pub mx: i32,
    pub mp: i32,
    pub my: i32,
    /// W as its kind reads it (R3).
    pub w: i32,
    /// H, signed (R4).
    pub h: i32,
    pub parameter_base: u16,
    pub overplane: u16,
}

impl World {
    /// 01: "World n: 32 bytes at 0x3D800 + 32n, halfwords: ...".
    pub fn read(vram: &[u8], number: u32) -> World {
        World::read_by(&Exact, vram, number)
    }

    /// The record as a die reads it.
    pub fn read_by(by: &impl Deviation, vram: &[u8], number: u32) -> World {
        let address = World::address(number);
        let half = |n: usize| u32::from(by.world_half(n, half_at(vram, address + 2 * n)));
        let signed = |n: usize, width: u32| sign_extend(half(n), width);
        let flags = half(0);
        let kind = match field(flags, 12, 2) {
            0 => WorldKind::Normal,
            1 => WorldKind::HBias,
            2 => WorldKind::Affine,
            _ => WorldKind::Object,
        };
        World {
            number,
            lon: bit(flags, 15),
            ron: bit(flags, 14),
            kind,
            scx: field(flags, 10, 2),
            scy: field(flags, 8, 2),
            over: bit(flags, 7),
            end: bit(flags, 6),
            base: field(flags, 0, 4),
            gx: signed(1, 10),
            gp: signed(2, 10),
            gy: signed(3, 16),
            mx: signed(4, 13),
            mp: signed(5, 15),
            my: signed(6, 13),
            w: width_field(kind, half(7)),
            h: signed(8, 16),
            parameter_base: half(9) as u16,
            overplane: half(10) as u16,
        }
    }

    /// Where the record lies.
    pub fn address(number: u32) -> usize {
        WORLD_TABLE + 32 * number as usize
    }

    /// "LON and RON both clear skips".
    pub fn is_dummy(&self) -> bool {
        !self.lon && !self.ron
    }

    /// Whether a background world is drawn to the eye.
    pub fn shown_to(&self, eye: Eye) -> bool {
        match eye {
            Eye::Left => self.lon,
            Eye::Right => self.ron,
        }
    }

    /// W + 1; a width of 0 or less is an empty window (R3).
    pub fn columns(&self) -> i32 {
        self.w + 1
    }

    /// 01's height, H + 1; 0 or less is an empty window (R4).
    pub fn stored_rows(&self) -> i32 {
        self.h + 1
    }

    /// The height that is drawn. 01's H + 1 is the plain rule, which affine
    /// worlds keep. A normal or H-bias world also covers the rest of the strip
    /// that holds GY (W3).
    pub fn rows(&self) -> i32 {
        let plain = self.stored_rows().max(0);
        match self.kind {
            WorldKind::Normal | WorldKind::HBias => plain.max(self.rest_of_strip()),
            WorldKind::Affine | WorldKind::Object => plain,
        }
    }

    /// The rows from GY to the end of the strip that holds it; 0 where no strip
    /// does. 02: "at least everything from GY to the end of the strip holding
    /// it", "for GY from 0 to 223". 001: "if GY is located within a given strip,
    /// the entire portion of that strip below GY will be covered by the world".
    fn rest_of_strip(&self) -> i32 {
        if (0..HEIGHT).contains(&self.gy) {
            STRIP_ROWS - self.gy % STRIP_ROWS
        } else {
            0
        }
    }

    /// The window's unclipped left edge: GX - GP left, GX + GP right.
    pub fn start(&self, eye: Eye) -> i32 {
        eye.shifted(self.gx, self.gp)
    }

    /// The columns of the window that the image has.
    pub fn visible_columns(&self, eye: Eye) -> Range<i32> {
        self.visible_columns_by(&Exact, eye)
    }

    /// The columns of the window that a die draws.
    pub fn visible_columns_by(&self, by: &impl Deviation, eye: Eye) -> Range<i32> {
        let start = self.start(eye);
        clip(by.columns(self, start..start + self.columns()), WIDTH)
    }

    /// The rows of the window that the image has.
    pub fn visible_rows(&self) -> Range<i32> {
        self.visible_rows_by(&Exact)
    }

    /// The rows of the window that a die draws.
    pub fn visible_rows_by(&self, by: &impl Deviation) -> Range<i32> {
        clip(by.rows(self, self.gy..self.gy + self.rows()), HEIGHT)
    }

    /// Parameter k: "halfword at 0x20000 + 2((base + k) mod 65,536) (H)".
    pub fn parameter_address(&self, k: i32) -> usize {
        let index = (i64::from(self.parameter_base) + i64::from(k)).rem_euclid(65_536);
        0x20000 + 2 * index as usize
    }

    /// The addresses of the parameters that row `j` of the window uses for
    /// the eye, a halfword each.
    pub fn parameters(&self, eye: Eye, j: i32) -> Vec<usize> {
        match self.kind {
            WorldKind::Normal | WorldKind::Object => Vec::new(),
            WorldKind::HBias => vec![self.parameter_address(h_bias_index(eye, j))],
            WorldKind::Affine => (0..5).map(|n| self.parameter_address(8 * j + n)).collect(),
        }
    }

    /// Where the pixels of row `j` of the window come from.
    pub fn source_row(&self, vram: &[u8], eye: Eye, j: i32) -> SourceRow {
        self.source_row_by(&Exact, vram, eye, j)
    }

    /// Where they come from in a die.
    pub fn source_row_by(&self, by: &impl Deviation, vram: &[u8], eye: Eye, j: i32) -> SourceRow {
        let parameter = |first: i32, n: i32| {
            let half = half_at(vram, self.parameter_address(first + n));
            u32::from(by.parameter(self.kind, eye, n, half))
        };
        let x = eye.shifted(self.mx, self.mp);
        let y = self.my + j;
        match self.kind {
            WorldKind::Normal | WorldKind::Object => SourceRow::Straight { x, y },
            WorldKind::HBias => {
                let offset = sign_extend(parameter(h_bias_index(eye, j), 0), 13);
                SourceRow::Straight { x: x + offset, y }
            }
            WorldKind::Affine => {
                let [mx, mp, my, dx, dy] =
                    [0, 1, 2, 3, 4].map(|n| i64::from(sign_extend(parameter(8 * j, n), 16)));
                SourceRow::Affine { mx, my, dx, dy, p: affine_parallax(eye, mp) }
            }
        }
    }
}

/// Rows of a strip.
const STRIP_ROWS: i32 = 8;

/// R3. 000: "For normal and H-bias worlds, W is a 13-bit signed value. For
/// affine worlds, it is a 10-bit unsigned value." Object worlds have no window.
fn width_field(kind: WorldKind, half: u32) -> i32 {
    match kind {
        WorldKind::Affine => field(half, 0, 10) as i32,
        _ => sign_extend(half, 13),
    }
}

/// R6. 01: "parameter 2j (left) or 2j + 1 (right)", at any base.
fn h_bias_index(eye: Eye, j: i32) -> i32 {
    match eye {
        Eye::Left => 2 * j,
        Eye::Right => 2 * j + 1,
    }
}

/// 01: "p = -MP left when MP is negative, MP right when it isn't, else 0".
fn affine_parallax(eye: Eye, mp: i64) -> i64 {
    match eye {
        Eye::Left if mp < 0 => -mp,
        Eye::Right if mp >= 0 => mp,
        _ => 0,
    }
}

/// The positions from 0 to just below `limit`; none of a range that ends
/// before it starts.
fn clip(range: Range<i32>, limit: i32) -> Range<i32> {
    range.start.max(0)..range.end.min(limit)
}

/// Where a row of the window comes from.
#[derive(Clone, Copy, Debug, PartialEq, Eq)]
pub enum SourceRow {
    /// Column i comes from (x + i, y).
    Straight { x: i32, y: i32 },
    /// Column i comes from floor((64 MX + DX(i + p)) / 512), y likewise.
    Affine { mx: i64, my: i64, dx: i64, dy: i64, p: i64 },
}

impl SourceRow {
    /// The source of column `i`, counted from the window's unclipped edge.
    pub fn at(&self, i: i32) -> (i32, i32) {
        self.at_by(&Exact, i)
    }

    /// The source of a column in a die.
    pub fn at_by(&self, by: &impl Deviation, i: i32) -> (i32, i32) {
        match *self {
            SourceRow::Straight { x, y } => (x + i, y),
            SourceRow::Affine { mx, my, dx, dy, p } => {
                let along = i64::from(i) + p;
                let whole = |x: bool, m: i64, d: i64| by.whole(x, 64 * m + d * along) as i32;
                (whole(true, mx, dx), whole(false, my, dy))
            }
        }
    }
}
