//! The records of worlds and objects, decoded with document 000's names.

use model::object::Object;
use model::world::{Eye, World, WorldKind};
use serde::Serialize;

/// First and last of a range of columns or rows; none where it is empty.
pub type Span = Option<(i32, i32)>;

/// A world's record.
#[derive(Clone, Debug, Serialize)]
pub struct WorldRecord {
    pub world: u32,
    pub address: usize,
    pub bgm: &'static str,
    pub lon: bool,
    pub ron: bool,
    pub end: bool,
    pub over: bool,
    pub scx: u32,
    pub scy: u32,
    pub base: u32,
    pub gx: i32,
    pub gp: i32,
    pub gy: i32,
    pub mx: i32,
    pub mp: i32,
    pub my: i32,
    /// W and H as they are stored; the window has `columns` and `rows`.
    pub w: i32,
    pub h: i32,
    pub columns: i32,
    /// H + 1, and the rows that the chip shows: a short world is taller (W3)
    pub stored_rows: i32,
    pub rows: i32,
    pub parameter_base: u16,
    pub overplane: u16,
    /// The clipped window for the eye; an object world has none.
    pub window: Option<Window>,
}

#[derive(Clone, Copy, Debug, Serialize)]
pub struct Window {
    pub columns: Span,
    pub rows: Span,
}

/// An object's record.
#[derive(Clone, Debug, Serialize)]
pub struct ObjectRecord {
    pub object: u32,
    pub address: usize,
    pub jx: i32,
    pub jp: i32,
    pub jy: i32,
    pub jlon: bool,
    pub jron: bool,
    pub jplt: u16,
    pub horizontal_flip: bool,
    pub vertical_flip: bool,
    pub character: u16,
    /// The leftmost column of its square for the eye.
    pub column: i32,
}

pub fn kind_text(kind: WorldKind) -> &'static str {
    match kind {
        WorldKind::Normal => "normal",
        WorldKind::HBias => "H-bias",
        WorldKind::Affine => "affine",
        WorldKind::Object => "object",
    }
}

fn span(range: std::ops::Range<i32>) -> Span {
    (range.start < range.end).then_some((range.start, range.end - 1))
}

pub fn span_text(what: &str, span: Span) -> String {
    match span {
        Some((first, last)) if first == last => format!("{what} {first}"),
        Some((first, last)) => format!("{what}s {first} to {last}"),
        None => format!("no {what}"),
    }
}

impl WorldRecord {
    pub fn read(vram: &[u8], number: u32, eye: Eye) -> WorldRecord {
        let world = World::read(vram, number);
        let window = (world.kind != WorldKind::Object).then(|| Window {
            columns: span(world.visible_columns(eye)),
            rows: span(world.visible_rows()),
        });
        WorldRecord {
            world: number,
            address: World::address(number),
            bgm: kind_text(world.kind),
            lon: world.lon,
            ron: world.ron,
            end: world.end,
            over: world.over,
            scx: world.scx,
            scy: world.scy,
            base: world.base,
            gx: world.gx,
            gp: world.gp,
            gy: world.gy,
            mx: world.mx,
            mp: world.mp,
            my: world.my,
            w: world.w,
            h: world.h,
            columns: world.columns().max(0),
            stored_rows: world.stored_rows().max(0),
            rows: world.rows().max(0),
            parameter_base: world.parameter_base,
            overplane: world.overplane,
            window,
        }
    }

    /// The fields on one line; of an object world and of one with END those that count.
    pub fn text(&self) -> String {
        let set = |name: &str, value: bool| if value { format!(" {name}") } else { String::new() };
        let flags = set("LON", self.lon) + &set("RON", self.ron) + &set("OVER", self.over);
        if self.window.is_none() {
            return format!("{}{flags}", self.bgm);
        }
        let WorldRecord { gx, gp, gy, mx, mp, my, w, h, columns, stored_rows, rows, .. } = self;
        format!(
            "{}{flags}, GX {gx} GP {gp} GY {gy}, MX {mx} MP {mp} MY {my}, W {w} ({columns} columns) H {h} \
             ({stored_rows} rows stored, {rows} shown), base {} SCX {} SCY {}{}{}",
            self.bgm,
            self.base,
            self.scx,
            self.scy,
            if self.bgm == "normal" { String::new() } else { format!(", parameters {}", self.parameter_base) },
            if self.over { format!(", overplane {}", self.overplane) } else { String::new() },
        )
    }
}

impl ObjectRecord {
    pub fn read(vram: &[u8], number: u32, eye: Eye) -> ObjectRecord {
        let object = Object::read(vram, number);
        ObjectRecord {
            object: number,
            address: Object::address(number),
            jx: object.jx,
            jp: object.jp,
            jy: object.jy,
            jlon: object.jlon,
            jron: object.jron,
            jplt: object.attributes >> 14,
            horizontal_flip: object.attributes >> 13 & 1 == 1,
            vertical_flip: object.attributes >> 12 & 1 == 1,
            character: object.attributes & 0x7FF,
            column: object.start(eye),
        }
    }

    pub fn text(&self) -> String {
        let set = |name: &str, value: bool| if value { format!(" {name}") } else { String::new() };
        format!(
            "JX {} JP {} JY {}{}{} JPLT{} character {}{}{} at 0x{:05X}",
            self.jx,
            self.jp,
            self.jy,
            set("JLON", self.jlon),
            set("JRON", self.jron),
            self.jplt,
            self.character,
            set("flipped horizontally", self.horizontal_flip),
            set("flipped vertically", self.vertical_flip),
            self.address
        )
    }
}
