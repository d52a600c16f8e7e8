//! Why a pixel has its shade: the worlds that were looked at, the background
//! worlds and objects that cover it, in drawing order, and the bytes of VRAM
//! that it answers to (01 "The bytes a pixel answers to").
//!
//! This works from the pixel outwards and paints nothing; the strip call of
//! [`crate::drawing`] works from the worlds inwards. They must agree.

use std::collections::BTreeSet;

use crate::background::{background_dot, BackgroundDot};
use crate::bus::DrawingRegisters;
use crate::character::{shade, Dot};
use crate::object::{group_length, group_objects, GroupCounter, Object};
use crate::refusal::{check_drawing, check_vram, Refusal};
use crate::world::{Eye, World, WorldKind, HEIGHT, WIDTH, WORLDS};

/// A background world or an object that covers the pixel, transparent there
/// or not.
#[derive(Clone, Debug, PartialEq, Eq)]
pub struct Covering {
    /// The world that drew it.
    pub world: u32,
    pub what: Covered,
    /// The character, its row and the value before the palette.
    pub dot: Dot,
    /// The palette register's value.
    pub palette: u16,
    /// What it gives the pixel; none when it is transparent there.
    pub shade: Option<u8>,
}

/// What covers the pixel.
#[derive(Clone, Debug, PartialEq, Eq)]
pub enum Covered {
    Background {
        kind: WorldKind,
        /// i and j, from the window's unclipped corner.
        offset: (i32, i32),
        /// H + 1, the height that the world's record asks for; negative for
        /// some H.
        stored_rows: i32,
        /// The height that is drawn. A pixel with j of `stored_rows` or more
        /// lies in a row that W3 adds: one of the strip that holds GY.
        rows: i32,
        /// The source position in the background, before it wraps.
        source: (i32, i32),
        /// Whether OVER put the overplane's cell here.
        overplane: bool,
        cell_address: usize,
        cell: u16,
        /// The addresses of the row's parameters, a halfword each.
        parameters: Vec<usize>,
    },
    Object {
        number: u32,
        group: usize,
        /// Where the object's record lies.
        record_address: usize,
        /// The column and row of the object's square.
        position: (u32, u32),
        /// Whether an earlier object world has drawn it here already.
        again: bool,
    },
}

/// What the loop made of a world.
#[derive(Clone, Copy, Debug, PartialEq, Eq)]
pub enum Fate {
    /// END: this world and all below it are not looked at.
    End,
    /// LON and RON both clear.
    Skipped,
    /// A background world that is not shown to this eye.
    Hidden,
    /// A background world whose clipped window does not hold the pixel.
    Elsewhere,
    /// A background world that covers the pixel.
    Covers,
    /// An object world: its group, the group's first object, how many objects
    /// it draws, and how many of them cover the pixel.
    Objects { group: usize, first: u32, length: u32, covering: u32 },
}

/// Everything about one pixel.
#[derive(Clone, Debug, PartialEq, Eq)]
pub struct Answers {
    pub eye: Eye,
    pub x: u32,
    pub y: u32,
    /// What the pixel starts as.
    pub bkcol: u8,
    /// Each world that was looked at, from 31 downwards.
    pub worlds: Vec<(u32, Fate)>,
    /// What covers the pixel, in drawing order.
    pub covering: Vec<Covering>,
}

impl Answers {
    /// The pixel after drawing: the last covering that isn't transparent.
    pub fn shade(&self) -> u8 {
        let drawn = self.covering.iter().rev().find_map(|covering| covering.shade);
        drawn.unwrap_or(self.bkcol)
    }

    /// The covering that gave the pixel its shade; none for BKCOL.
    pub fn winner(&self) -> Option<&Covering> {
        self.covering.iter().rev().find(|covering| covering.shade.is_some())
    }

    /// The world whose END stopped the loop.
    pub fn end(&self) -> Option<u32> {
        self.worlds.iter().find(|(_, fate)| *fate == Fate::End).map(|(number, _)| *number)
    }

    /// The addresses of the single bytes of VRAM that the pixel answers to.
    /// An object is listed once however often it is drawn; two coverings with
    /// the same row repeat its addresses.
    pub fn bytes(&self) -> Vec<usize> {
        self.covering.iter().flat_map(Covering::bytes).collect()
    }

    /// The same addresses in the order of docs/PROMISES.md: the background
    /// worlds' from world 31 down, then those of objects 1,023 to 0.
    pub fn listed(&self) -> Vec<usize> {
        let mut ordered: Vec<&Covering> = self.covering.iter().collect();
        ordered.sort_by_key(|covering| match covering.what {
            Covered::Background { .. } => (0, 0),
            Covered::Object { number, .. } => (1, u32::MAX - number),
        });
        ordered.into_iter().flat_map(Covering::bytes).collect()
    }

    /// The background worlds that cover the pixel.
    pub fn covering_worlds(&self) -> usize {
        self.covering.iter().filter(|covering| !covering.is_object()).count()
    }

    /// The objects that cover the pixel, each counted once.
    pub fn covering_objects(&self) -> usize {
        self.covering.iter().filter(|covering| covering.is_object_first()).count()
    }
}

impl Covering {
    pub fn is_object(&self) -> bool {
        matches!(self.what, Covered::Object { .. })
    }

    fn is_object_first(&self) -> bool {
        matches!(self.what, Covered::Object { again: false, .. })
    }

    /// "its cell (2 bytes, the overplane's where that is used) and character
    /// row (2); H-bias adds 2 parameter bytes, affine 10", and for an object
    /// "its character row (2), listed once however often it is drawn".
    pub fn bytes(&self) -> Vec<usize> {
        let mut halves = match &self.what {
            Covered::Object { again: true, .. } => return Vec::new(),
            Covered::Object { again: false, .. } => Vec::new(),
            Covered::Background { cell_address, parameters, .. } => {
                let mut halves = parameters.clone();
                halves.push(*cell_address);
                halves
            }
        };
        halves.push(self.dot.row_address);
        halves.into_iter().flat_map(|address| [address, address + 1]).collect()
    }
}

/// Looks at pixel (x, y) of an eye; x is below 384 and y below 224. Refusals 3
/// and 5.
pub fn answers(
    vram: &[u8],
    drawing: &DrawingRegisters,
    eye: Eye,
    x: u32,
    y: u32,
) -> Result<Answers, Refusal> {
    check_vram(vram.len())?;
    check_drawing(drawing)?;
    assert!(x < WIDTH as u32 && y < HEIGHT as u32, "pixel ({x}, {y}) is never drawn");
    let bkcol = drawing.bkcol as u8;
    let worlds = Vec::new();
    let mut answers = Answers { eye, x, y, bkcol, worlds, covering: Vec::new() };
    let mut counter = GroupCounter::start();
    let mut drawn = BTreeSet::new();
    for number in (0..WORLDS).rev() {
        let world = World::read(vram, number);
        let fate = if world.end {
            Fate::End
        } else if world.is_dummy() {
            Fate::Skipped
        } else if world.kind == WorldKind::Object {
            look_at_group(vram, drawing, number, counter.take(), &mut drawn, &mut answers)
        } else {
            look_at_background(vram, drawing, &world, &mut answers)
        };
        answers.worlds.push((number, fate));
        if fate == Fate::End {
            break;
        }
    }
    Ok(answers)
}

/// A background world: whether it covers the pixel, and with what.
fn look_at_background(
    vram: &[u8],
    drawing: &DrawingRegisters,
    world: &World,
    answers: &mut Answers,
) -> Fate {
    let (eye, x, y) = (answers.eye, answers.x as i32, answers.y as i32);
    if !world.shown_to(eye) {
        return Fate::Hidden;
    }
    let (i, j) = (x - world.start(eye), y - world.gy);
    if !(0..world.columns()).contains(&i) || !(0..world.rows()).contains(&j) {
        return Fate::Elsewhere;
    }
    let position = world.source_row(vram, eye, j).at(i);
    let BackgroundDot { source, overplane, cell_address, cell, dot } =
        background_dot(vram, world, position);
    let palette = drawing.gplt[dot.palette];
    answers.covering.push(Covering {
        world: world.number,
        what: Covered::Background {
            kind: world.kind,
            offset: (i, j),
            stored_rows: world.stored_rows(),
            rows: world.rows(),
            source,
            overplane,
            cell_address,
            cell,
            parameters: world.parameters(eye, j),
        },
        dot,
        palette,
        shade: shade(palette, dot.value),
    });
    Fate::Covers
}

/// An object world: which objects of its group cover the pixel.
fn look_at_group(
    vram: &[u8],
    drawing: &DrawingRegisters,
    world: u32,
    group: usize,
    drawn: &mut BTreeSet<u32>,
    answers: &mut Answers,
) -> Fate {
    let (eye, x, y) = (answers.eye, answers.x as i32, answers.y as i32);
    let before = answers.covering.len();
    for number in group_objects(drawing, group) {
        let object = Object::read(vram, number);
        let (Some(column), Some(row)) = (object.column(eye, x), object.row(y)) else { continue };
        if !object.shown_to(eye) {
            continue;
        }
        let dot = object.dot(vram, column, row);
        let palette = drawing.jplt[dot.palette];
        answers.covering.push(Covering {
            world,
            what: Covered::Object {
                number,
                group,
                record_address: Object::address(number),
                position: (column, row),
                again: !drawn.insert(number),
            },
            dot,
            palette,
            shade: shade(palette, dot.value),
        });
    }
    Fate::Objects {
        group,
        first: u32::from(drawing.spt[group]),
        length: group_length(drawing, group),
        covering: (answers.covering.len() - before) as u32,
    }
}
