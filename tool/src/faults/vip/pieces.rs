//! What one piece paints: drawn alone by the library, with the fault.

use super::layer::{area, filled, Layer, Plane, WORDS};
use super::memory::Memory;
use super::order::Piece;
use super::scene::Scene;
use super::stage::Stage;
use super::tables::{Object, World, OVER, SHOWN};
use super::window::{column_of, folded, kind, row_of, Extent, Side, Window};
use super::{tables, Effect};

/// The layer of a piece.
pub fn draw(scene: &Scene, piece: &Piece, effect: &Effect) -> Layer {
    match piece {
        Piece::Objects([left, right]) if left == right => draw_objects(scene, left),
        Piece::Objects(lists) => by_eye(|eye| draw_objects(scene, &of_eye(&lists[eye], eye))),
        Piece::World(worlds) => {
            let memory = effect.memory();
            let apart =
                worlds[0] != worlds[1] || matches!(memory, Some(Memory::AffineMpZero { .. }));
            let mut layer = match apart {
                false => draw_world(scene, &worlds[0], None, memory),
                true => by_eye(|eye| draw_world(scene, &worlds[eye], Some(eye), memory)),
            };
            if let Effect::Window(window) = effect {
                (0..2).for_each(|eye| change(scene, &worlds[eye], eye, window, &mut layer));
            }
            layer
        }
    }
}

/// A layer whose eyes are drawn apart.
fn by_eye(draw: impl Fn(usize) -> Layer) -> Layer {
    let mut layer = draw(0);
    layer.take_eye(1, draw(1));
    layer
}

fn draw_world(scene: &Scene, world: &World, eye: Option<usize>, memory: Option<&Memory>) -> Layer {
    let mut stage = Stage::new(scene.vram);
    stage.put_world(scene.vram, world, eye, memory);
    stage.layer(&scene.drawing, 0)
}

/// The objects of a list, shown to one eye alone.
fn of_eye(objects: &[Object], eye: usize) -> Vec<Object> {
    let shown = |&[jx, jp, jy, attributes]: &Object| [jx, jp & !SHOWN[1 - eye], jy, attributes];
    objects.iter().map(shown).collect()
}

fn draw_objects(scene: &Scene, objects: &[Object]) -> Layer {
    let mut whole = Layer::empty();
    for part in objects.chunks(1_024) {
        let mut stage = Stage::new(scene.vram);
        stage.put_objects(part);
        let layer = stage.layer(&scene.drawing, part.len());
        for eye in 0..2 {
            layer.over(eye, &mut whole.shade[eye]);
            whole.painted[eye]
                .iter_mut()
                .zip(&layer.painted[eye])
                .for_each(|(all, own)| *all |= own);
        }
    }
    whole
}

/// Changes an eye's layer of a world as a fault of windows does.
fn change(scene: &Scene, world: &World, eye: usize, window: &Window, layer: &mut Layer) {
    let extent = Extent::of(world, eye);
    if !extent.shown || !window.changes(world) {
        return;
    }
    let Extent { left, columns, top, rows, .. } = extent;
    let (right, bottom) = (left + columns, top + rows);
    let mut column = |x: i32, i: i32| paint_column(scene, world, eye, (x, i), layer);
    match *window {
        Window::Edge { side: Side::Left, outwards: true, .. } => column(left - 1, -1),
        Window::Edge { side: Side::Right, outwards: true, .. } => column(right, columns),
        Window::LastColumn if right <= 0 && columns > 0 => column(0, columns - 1),
        Window::Edge { side: Side::Top, outwards: true, .. } => {
            paint_row(scene, world, eye, (top - 1, -1), layer);
        }
        Window::Edge { side: Side::Bottom, outwards: true, .. } => {
            paint_row(scene, world, eye, (bottom, rows), layer);
        }
        Window::LastRow if bottom <= 0 && rows > 0 => {
            paint_row(scene, world, eye, (0, rows - 1), layer);
        }
        Window::Edge { side, .. } => {
            let lost = match side {
                Side::Left => area(left..left + 1, 0..224),
                Side::Right => area(right - 1..right, 0..224),
                Side::Top => area(0..384, top..top + 1),
                Side::Bottom => area(0..384, bottom - 1..bottom),
            };
            layer.take(eye, &lost, &Layer::empty());
        }
        Window::PlainHeight { .. } => {
            let lost = area(0..384, top + extent.plain_rows..224);
            layer.take(eye, &lost, &Layer::empty());
        }
        Window::Truncated { x } => truncate(scene, world, eye, x, layer),
        _ => {}
    }
}

/// Paints at column `x` what the window has at its column `i`.
fn paint_column(scene: &Scene, world: &World, eye: usize, at: (i32, i32), layer: &mut Layer) {
    let (x, i) = at;
    if !(0..384).contains(&x) {
        return;
    }
    let one = column_of(world, eye, x, i);
    let mut stage = Stage::new(scene.vram);
    stage.put_world(scene.vram, &one, Some(eye), None);
    if kind(world) == tables::AFFINE {
        let over = world[0] & OVER != 0;
        let rows = Extent::of(&one, eye).visible_rows().len() as i32;
        stage.change_affine_rows(rows, |row| {
            let source = Source::of(row, eye);
            let whole = |along: i64| (8 * folded(along.div_euclid(512) as i32, over, 4_096)) as u16;
            *row = [whole(source.x(i)), 0, whole(source.y(i)), 0, 0];
        });
    }
    let drawn = stage.layer(&scene.drawing, 0);
    layer.take(eye, &area(x..x + 1, 0..224), &drawn);
}

/// Paints at row `y` what the window has at its row `j`.
fn paint_row(scene: &Scene, world: &World, eye: usize, at: (i32, i32), layer: &mut Layer) {
    let (y, j) = at;
    if (0..224).contains(&y) {
        let drawn = draw_world(scene, &row_of(world, y, j), Some(eye), None);
        layer.take(eye, &area(0..384, y..y + 1), &drawn);
    }
}

/// Where an affine row comes from, in 512ths of a pixel.
struct Source {
    mx: i64,
    my: i64,
    dx: i64,
    dy: i64,
    /// What is added to the column.
    further: i64,
}

impl Source {
    fn of(row: &[u16; 5], eye: usize) -> Source {
        let [mx, mp, my, dx, dy] = row.map(|half| i64::from(half as i16));
        let further = match eye {
            0 => (-mp).max(0),
            _ => mp.max(0),
        };
        Source { mx, my, dx, dy, further }
    }

    fn x(&self, i: i32) -> i64 {
        64 * self.mx + self.dx * (i64::from(i) + self.further)
    }

    fn y(&self, i: i32) -> i64 {
        64 * self.my + self.dy * (i64::from(i) + self.further)
    }
}

/// Rounds an axis towards 0: below 0 and not whole, the source lies one pixel further, as with a position 8 more.
fn truncate(scene: &Scene, world: &World, eye: usize, x_axis: bool, layer: &mut Layer) {
    let mut stage = Stage::new(scene.vram);
    stage.put_world(scene.vram, world, Some(eye), None);
    let extent = Extent::of(world, eye);
    let rows = extent.visible_rows();
    let mut rounded: Plane = filled(0);
    for y in rows.clone() {
        let source = Source::of(&stage.affine_row(y - rows.start), eye);
        for x in extent.visible_columns() {
            let i = x - extent.left;
            let along = if x_axis { source.x(i) } else { source.y(i) };
            if along < 0 && along % 512 != 0 {
                rounded[x as usize * WORDS + y as usize / 32] |= 3 << (2 * (y % 32));
            }
        }
    }
    let place = if x_axis { 0 } else { 2 };
    stage.change_affine_rows(rows.len() as i32, |row| row[place] = row[place].wrapping_add(8));
    let drawn = stage.layer(&scene.drawing, 0);
    layer.take(eye, &rounded, &drawn);
}
