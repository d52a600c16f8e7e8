//! Worlds of the scenes that were drawn: kinds, sizes, windows, sources, cells.

use model::background::background_dot;
use model::world::{Eye, SourceRow, World, WorldKind};

use super::table::{names, numbers, Axis, Table};

/// Every so many columns and rows of a window are looked at.
const COLUMNS: usize = 5;
const ROWS: usize = 3;

pub struct Worlds {
    slots: Table,
    ends: Table,
    eyes: Table,
    sizes: Table,
    bases: Table,
    cells: Table,
    sources: Table,
    windows: Table,
    parallax: Table,
    extents: Table,
    rows_in_strip: Table,
    parameters: Table,
    offsets: Table,
    affine: Table,
    rounding: Table,
    characters: Table,
    dots: Table,
}

fn kinds() -> Axis {
    names(&["normal", "H-bias", "affine"])
}

fn signs(of: &str) -> Axis {
    ["negative", "0", "positive"].iter().map(|sign| format!("{of} {sign}")).collect()
}

fn eyes() -> Axis {
    names(&["left", "right"])
}

/// 0 negative, 1 zero, 2 positive.
pub fn sign(value: i64) -> usize {
    (value.signum() + 1) as usize
}

fn kind_number(kind: WorldKind) -> usize {
    match kind {
        WorldKind::Normal => 0,
        WorldKind::HBias => 1,
        WorldKind::Affine => 2,
        WorldKind::Object => 3,
    }
}

/// Where a range lies to an edge at `limit`: before it, at it, over it, beyond it.
fn edge(from: i32, to: i32, limit: i32) -> usize {
    match (from, to) {
        (_, to) if to < limit => 0,
        (_, to) if to == limit => 1,
        (from, _) if from < limit => 2,
        _ => 3,
    }
}

fn extent_class(extent: i32, limit: i32) -> usize {
    match extent {
        ..=0 => 0,
        1 => 1,
        2..=7 => 2,
        8..=63 => 3,
        _ if extent < limit => 4,
        _ => 5,
    }
}

impl Worlds {
    pub fn new() -> Worlds {
        let all_kinds = || {
            let mut all = kinds();
            all.push("objects".to_string());
            all
        };
        let flips = names(&["plain", "vertical flip", "horizontal flip", "both flips"]);
        let edges = names(&["inside", "up to", "over", "beyond"]);
        let sides = names(&["left edge", "right edge", "top edge", "bottom edge"]);
        let over = || numbers("OVER ", 2);
        let extents = names(&["empty", "1", "2 to 7", "8 to 63", "more", "the whole screen"]);
        let places = names(&["inside", "left of it", "right of it", "above it", "below it"]);
        let table = Table::new;
        Worlds {
            slots: table("worlds by slot", vec![numbers("world ", 32), all_kinds()]),
            ends: table(
                "END and skipped worlds",
                vec![numbers("world ", 32), names(&["END", "skipped"])],
            ),
            eyes: table(
                "eyes of worlds",
                vec![all_kinds(), names(&["RON alone", "LON alone", "both"])],
            ),
            sizes: table(
                "background sizes",
                vec![kinds(), numbers("SCX ", 4), numbers("SCY ", 4), over()],
            ),
            bases: table("map bases", vec![kinds(), numbers("base ", 16)]),
            cells: table("cells", vec![kinds(), flips, numbers("GPLT", 4)]),
            sources: table("sources", vec![kinds(), over(), places]),
            windows: table("window edges", vec![kinds(), eyes(), sides, edges]),
            parallax: table("parallax", vec![kinds(), signs("GP"), signs("MP")])
                .without(|place| place[0] == 2 && place[2] != 1),
            extents: table("window sizes", vec![kinds(), names(&["W", "H"]), extents])
                .without(|place| place == [2, 0, 0]),
            rows_in_strip: table(
                "first rows",
                vec![
                    kinds(),
                    numbers("GY mod 8 is ", 8),
                    names(&["H reaches over the strip", "H ends in the strip"]),
                ],
            ),
            parameters: table(
                "parameter bases",
                vec![names(&["H-bias", "affine"]), numbers("base mod 16 is ", 16)],
            ),
            offsets: table("H-bias offsets", vec![eyes(), signs("offset")]),
            affine: table("affine rows", vec![signs("DX"), signs("DY"), signs("MP")]),
            rounding: table(
                "affine sources",
                vec![
                    names(&["x", "y"]),
                    names(&["below 0", "from 0 on"]),
                    names(&["whole", "between pixels"]),
                ],
            ),
            characters: table("characters of cells", vec![numbers("16 from 16 * ", 128)]),
            dots: table(
                "dots of cells",
                vec![numbers("column ", 8), numbers("row ", 8), numbers("value ", 4)],
            ),
        }
    }

    /// A world that is looked at, and whether it ends the loop.
    pub fn see(&mut self, vram: &[u8], world: &World) {
        let slot = world.number as usize;
        if world.end || world.is_dummy() {
            self.ends.mark(&[slot, usize::from(!world.end)]);
            return;
        }
        let kind = kind_number(world.kind);
        self.slots.mark(&[slot, kind]);
        let shown = if world.lon && world.ron { 2 } else { usize::from(world.lon) };
        self.eyes.mark(&[kind, shown]);
        if world.kind == WorldKind::Object {
            return;
        }
        let (over, base) = (usize::from(world.over), world.base as usize);
        self.sizes.mark(&[kind, world.scx as usize, world.scy as usize, over]);
        self.bases.mark(&[kind, base]);
        let mp = if kind == 2 { 0 } else { world.mp };
        self.parallax.mark(&[kind, sign(world.gp.into()), sign(mp.into())]);
        self.extents.mark(&[kind, 0, extent_class(world.columns(), 384)]);
        self.extents.mark(&[kind, 1, extent_class(world.stored_rows(), 224)]);
        let in_strip = world.gy.rem_euclid(8);
        let short = usize::from(world.stored_rows() < 8 - in_strip);
        self.rows_in_strip.mark(&[kind, in_strip as usize, short]);
        if kind > 0 {
            self.parameters.mark(&[kind - 1, usize::from(world.parameter_base) % 16]);
        }
        for eye in Eye::BOTH.into_iter().filter(|eye| world.shown_to(*eye)) {
            self.window(world, kind, eye);
            self.pixels(vram, world, kind, eye);
        }
    }

    fn window(&mut self, world: &World, kind: usize, eye: Eye) {
        let (columns, rows) = (world.columns(), world.rows());
        if columns <= 0 || rows <= 0 {
            return;
        }
        let (left, top) = (world.start(eye), world.gy);
        let (right, bottom) = (left + columns, top + rows);
        let at = [
            edge(-right, -left, 0),
            edge(left, right, 384),
            edge(-bottom, -top, 0),
            edge(top, bottom, 224),
        ];
        for (side, place) in at.into_iter().enumerate() {
            self.windows.mark(&[kind, eye.number() as usize, side, place]);
        }
    }

    /// Some pixels of a window.
    fn pixels(&mut self, vram: &[u8], world: &World, kind: usize, eye: Eye) {
        for y in world.visible_rows().step_by(ROWS) {
            let source = world.source_row(vram, eye, y - world.gy);
            self.row(world, kind, eye, &source);
            let shift = y as usize % COLUMNS;
            for x in world.visible_columns(eye).skip(shift).step_by(COLUMNS) {
                self.pixel(vram, world, kind, &source, x - world.start(eye));
            }
        }
    }

    fn row(&mut self, world: &World, kind: usize, eye: Eye, source: &SourceRow) {
        match *source {
            SourceRow::Straight { x, .. } if kind == 1 => {
                let offset = x - eye.shifted(world.mx, world.mp);
                self.offsets.mark(&[eye.number() as usize, sign(offset.into())]);
            }
            SourceRow::Affine { dx, dy, p, .. } => {
                // p of the other eye is 0: the sign of MP shows where p is not
                let mp = match (p, eye) {
                    (0, _) => 0,
                    (_, Eye::Left) => -1,
                    (_, Eye::Right) => 1,
                };
                self.affine.mark(&[sign(dx), sign(dy), sign(mp)]);
            }
            SourceRow::Straight { .. } => {}
        }
    }

    fn pixel(&mut self, vram: &[u8], world: &World, kind: usize, source: &SourceRow, i: i32) {
        let (x, y) = source.at(i);
        let (width, height) = (512 << world.scx, 512 << world.scy);
        let place = match (x, y) {
            (..=-1, _) => 1,
            (_, ..=-1) => 3,
            _ if x >= width => 2,
            _ if y >= height => 4,
            _ => 0,
        };
        self.sources.mark(&[kind, usize::from(world.over), place]);
        if let SourceRow::Affine { mx, my, dx, dy, p } = *source {
            let along = i64::from(i) + p;
            for (axis, at) in [64 * mx + dx * along, 64 * my + dy * along].into_iter().enumerate() {
                let between = usize::from(at.rem_euclid(512) != 0);
                self.rounding.mark(&[axis, usize::from(at >= 0), between]);
            }
        }
        let dot = background_dot(vram, world, (x, y)).dot;
        let flips = usize::from(dot.flipped_vertically) + 2 * usize::from(dot.flipped_horizontally);
        self.cells.mark(&[kind, flips, dot.palette]);
        self.characters.mark(&[dot.character as usize / 16]);
        let (column, row) = (x.rem_euclid(8) as usize, y.rem_euclid(8) as usize);
        self.dots.mark(&[column, row, usize::from(dot.value)]);
    }

    pub fn tables(&self) -> Vec<Table> {
        let all = [
            &self.slots,
            &self.ends,
            &self.eyes,
            &self.sizes,
            &self.bases,
            &self.cells,
            &self.sources,
            &self.windows,
            &self.parallax,
            &self.extents,
            &self.rows_in_strip,
            &self.parameters,
            &self.offsets,
            &self.affine,
            &self.rounding,
            &self.characters,
            &self.dots,
        ];
        all.into_iter().cloned().collect()
    }
}
