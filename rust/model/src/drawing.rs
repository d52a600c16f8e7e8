//! The strip call and the frame call: 01 "Drawing"; 000 "Drawing Procedure"
//! and "Frame Buffer".

use std::ops::Range;

use crate::background::background_dot_by;
use crate::bus::DrawingRegisters;
use crate::character::{dot_by, shade};
use crate::deviation::{Deviation, Exact};
use crate::number::half_at;
use crate::object::{group_objects_by, GroupCounter, Object};
use crate::refusal::{check_drawing, check_vram, refuse_unless, Refusal};
use crate::world::{Eye, World, WorldKind, WIDTH, WORLDS};

/// Strips of a frame.
pub const STRIPS: u32 = 28;
/// Rows of a strip.
const ROWS: i32 = 8;

/// Where the image of a frame and an eye starts: "0x8000 * f + 0x10000 * e".
pub fn image_address(frame: u32, eye: Eye) -> usize {
    0x8000 * frame as usize + 0x10000 * eye.number() as usize
}

/// "Pixel (x, y): halfword at 64x + 2(y / 8), bits 2(y mod 8) and the next":
/// the halfword's offset in the image, and the lower bit.
pub fn pixel_place(x: u32, y: u32) -> (usize, u32) {
    (64 * x as usize + 2 * (y as usize / 8), 2 * (y % 8))
}

/// The pixel of an image in VRAM.
pub fn pixel(vram: &[u8], frame: u32, eye: Eye, x: u32, y: u32) -> u8 {
    let (offset, low) = pixel_place(x, y);
    (half_at(vram, image_address(frame, eye) + offset) >> low & 3) as u8
}

/// One eye's pixels of a strip while it is worked out.
struct Canvas {
    /// The strip's first row.
    top: i32,
    pixels: Vec<u8>,
}

impl Canvas {
    /// "Pixels start as BKCOL".
    fn new(strip: u32, bkcol: u16) -> Canvas {
        Canvas { top: ROWS * strip as i32, pixels: vec![bkcol as u8; (WIDTH * ROWS) as usize] }
    }

    fn rows(&self) -> Range<i32> {
        self.top..self.top + ROWS
    }

    /// Paints a pixel that the strip has.
    fn paint(&mut self, x: i32, y: i32, shade: u8) {
        self.pixels[(x * ROWS + y - self.top) as usize] = shade;
    }

    /// The halfword of column `x`: its eight pixels from the top.
    fn half(&self, x: i32) -> u16 {
        let column = &self.pixels[(x * ROWS) as usize..][..ROWS as usize];
        column.iter().rev().fold(0, |half, &shade| half << 2 | u16::from(shade))
    }
}

/// What paints a pixel.
#[derive(Clone, Copy, Debug, PartialEq, Eq, PartialOrd, Ord)]
pub enum Source {
    Background { world: u32 },
    Object { world: u32, object: u32 },
}

/// A part of one eye's picture.
#[derive(Clone, Debug)]
pub struct Area {
    pub eye: Eye,
    pub columns: Range<i32>,
    pub rows: Range<i32>,
}

/// The numbers that two ranges share.
fn common(a: &Range<i32>, b: &Range<i32>) -> Range<i32> {
    a.start.max(b.start)..a.end.min(b.end)
}

/// Each pixel of the area that is painted, with what paints it and its shade,
/// in drawing order: "worlds run from 31 to 0, later over earlier, as 000's
/// loop: END stops; LON and RON both clear skips and leaves the object counter;
/// BGM 3 draws the counter's group".
pub fn paint(
    vram: &[u8],
    drawing: &DrawingRegisters,
    area: &Area,
    painted: &mut impl FnMut(Source, i32, i32, u8),
) {
    paint_by(&Exact, vram, drawing, area, painted);
}

/// Each pixel that a die paints.
fn paint_by(
    by: &impl Deviation,
    vram: &[u8],
    drawing: &DrawingRegisters,
    area: &Area,
    painted: &mut impl FnMut(Source, i32, i32, u8),
) {
    let mut counter = GroupCounter::start();
    for number in (0..WORLDS).rev() {
        let world = World::read_by(by, vram, number);
        if world.end && !by.draws_end() {
            break;
        }
        if !world.is_dummy() {
            paint_world(by, vram, drawing, &world, area, &mut counter, painted);
        }
        if world.end {
            break;
        }
    }
}

/// The pixels that one world paints.
fn paint_world(
    by: &impl Deviation,
    vram: &[u8],
    drawing: &DrawingRegisters,
    world: &World,
    area: &Area,
    counter: &mut GroupCounter,
    painted: &mut impl FnMut(Source, i32, i32, u8),
) {
    if world.kind == WorldKind::Object {
        for object in group_objects_by(by, drawing, counter.take_by(by)) {
            let object = Object::read_by(by, vram, object);
            paint_object(by, vram, drawing, world.number, &object, area, painted);
        }
    } else if world.shown_to(area.eye) {
        paint_background(by, vram, drawing, &by.world(*world, area.eye), area, painted);
    }
}

/// The pixels that one background world paints.
fn paint_background(
    by: &impl Deviation,
    vram: &[u8],
    drawing: &DrawingRegisters,
    world: &World,
    area: &Area,
    painted: &mut impl FnMut(Source, i32, i32, u8),
) {
    let what = Source::Background { world: world.number };
    let columns = common(&area.columns, &world.visible_columns_by(by, area.eye));
    for y in common(&area.rows, &world.visible_rows_by(by)) {
        let source = world.source_row_by(by, vram, area.eye, y - world.gy);
        for x in columns.clone() {
            let position = source.at_by(by, x - world.start(area.eye));
            let dot = background_dot_by(by, vram, world, position).dot;
            let palette = drawing.gplt[dot.palette];
            if let Some(shade) = by.shade(palette, dot.value, shade(palette, dot.value)) {
                painted(what, x, y, shade);
            }
        }
    }
}

/// The pixels that one object of a world paints.
fn paint_object(
    by: &impl Deviation,
    vram: &[u8],
    drawing: &DrawingRegisters,
    world: u32,
    object: &Object,
    area: &Area,
    painted: &mut impl FnMut(Source, i32, i32, u8),
) {
    let start = object.start(area.eye);
    if !object.shown_to(area.eye) || !by.draws_object(start) {
        return;
    }
    let what = Source::Object { world, object: object.number };
    for y in area.rows.clone() {
        let Some(row) = object.row(y) else { continue };
        for x in common(&area.columns, &(start..start + 8)) {
            let dot = dot_by(by, vram, object.attributes, (x - start) as u32, row);
            let palette = drawing.jplt[dot.palette];
            if let Some(shade) = by.shade(palette, dot.value, shade(palette, dot.value)) {
                painted(what, x, y, shade);
            }
        }
    }
}

/// A strip worked out whole for both eyes.
fn work_out_strip(
    by: &impl Deviation,
    vram: &[u8],
    drawing: &DrawingRegisters,
    strip: u32,
) -> [Canvas; 2] {
    Eye::BOTH.map(|eye| {
        let mut canvas = Canvas::new(strip, drawing.bkcol);
        let area = Area { eye, columns: 0..WIDTH, rows: canvas.rows() };
        paint_by(by, vram, drawing, &area, &mut |_, x, y, shade| canvas.paint(x, y, shade));
        canvas
    })
}

/// Refusals 3, 5 and 7 of a strip or a frame.
fn check(vram: &[u8], drawing: &DrawingRegisters, frame: u32) -> Result<(), Refusal> {
    check_vram(vram.len())?;
    check_drawing(drawing)?;
    refuse_unless(frame <= 1, Refusal::Frame)
}

/// "A strip is worked out whole for both eyes from memory as it was at the
/// call, then stored into that part of VRAM alone."
fn draw_accepted_strip(
    by: &impl Deviation,
    vram: &mut [u8],
    drawing: &DrawingRegisters,
    frame: u32,
    strip: u32,
) {
    let canvases = work_out_strip(by, vram, &by.registers(*drawing), strip);
    for (eye, canvas) in Eye::BOTH.into_iter().zip(&canvases) {
        for x in 0..WIDTH {
            let (offset, _) = pixel_place(x as u32, canvas.top as u32);
            if let Some((number, half)) = by.stored(eye, offset / 2, canvas.half(x)) {
                let address = image_address(frame, eye) + 2 * number;
                vram[address..address + 2].copy_from_slice(&half.to_le_bytes());
            }
        }
    }
}

/// Draws one strip of a frame; refusals 3, 5, 7, 8.
pub fn draw_strip(
    vram: &mut [u8],
    drawing: &DrawingRegisters,
    frame: u32,
    strip: u32,
) -> Result<(), Refusal> {
    check(vram, drawing, frame)?;
    refuse_unless(strip < STRIPS, Refusal::StripOrCharacter)?;
    draw_accepted_strip(&Exact, vram, drawing, frame, strip);
    Ok(())
}

/// "A frame is strips 0 to 27"; refusals 3, 5, 7.
pub fn draw_frame(vram: &mut [u8], drawing: &DrawingRegisters, frame: u32) -> Result<(), Refusal> {
    draw_frame_by(&Exact, vram, drawing, frame)
}

/// Draws a frame as a die does that deviates.
pub fn draw_frame_by(
    by: &impl Deviation,
    vram: &mut [u8],
    drawing: &DrawingRegisters,
    frame: u32,
) -> Result<(), Refusal> {
    check(vram, drawing, frame)?;
    for strip in 0..STRIPS {
        draw_accepted_strip(by, vram, drawing, frame, strip);
    }
    Ok(())
}
