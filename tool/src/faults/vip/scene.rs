//! A scene, and what a die with a fault leaves of it in VRAM.

use std::cell::OnceCell;

use vb::Drawing;

use super::buffer::Drawn;
use super::layer::{filled, plane, store, Layer};
use super::order::{Piece, Tables};
use super::pieces::draw;
use super::registers::{map_dots, restore};
use super::tables::{objects, worlds, Object, World};
use super::Effect;

/// VRAM before a drawing, the registers, and what the library makes of them. A scene keeps the layers that its worlds
/// paint, so that many faults of one scene are quicker than one fault of many scenes.
pub struct Scene<'a> {
    pub(super) vram: &'a [u8],
    pub(super) drawing: Drawing,
    frame: u32,
    plain: Vec<u8>,
    worlds: Vec<World>,
    objects: Vec<Object>,
    pieces: Vec<Piece>,
    layers: Vec<OnceCell<Layer>>,
}

/// Draws a scene of an accepted machine.
fn drawn(vram: &mut [u8], drawing: &Drawing, frame: u32) {
    drawing.draw_frame(vram, frame).expect("VRAM and registers of an accepted machine");
}

impl<'a> Scene<'a> {
    pub fn new(vram: &'a [u8], drawing: &Drawing, frame: u32) -> Scene<'a> {
        let mut plain = vram.to_vec();
        drawn(&mut plain, drawing, frame);
        let (worlds, objects) = (worlds(vram), objects(vram));
        let tables =
            Tables { worlds: &worlds, objects: &objects, drawing, effect: &Effect::Nothing };
        let pieces = tables.pieces();
        let layers = pieces.iter().map(|_| OnceCell::new()).collect();
        Scene { vram, drawing: *drawing, frame, plain, worlds, objects, pieces, layers }
    }

    /// VRAM after the drawing of a good die.
    pub fn plain(&self) -> &[u8] {
        &self.plain
    }

    /// VRAM after the drawing of a die with a fault; nothing where it is that of a good one.
    pub fn after(&self, effect: &Effect) -> Option<Vec<u8>> {
        let after = match effect {
            Effect::Nothing => None,
            Effect::Register(register) => {
                let read = register.read(&self.drawing);
                (read != self.drawing).then(|| self.drawn_by(&read, |_| {}))
            }
            Effect::Character(character) => {
                let mut copy = self.vram.to_vec();
                character.read(self.vram, &mut copy);
                (copy != self.vram)
                    .then(|| self.drawn_by(&self.drawing, |vram| restore(vram, &copy)))
            }
            Effect::BkcolZero { eye } => self.bkcol_zero(*eye),
            Effect::Value0Opaque => Some(self.value_0_opaque()),
            Effect::Buffer(buffer) => {
                let mut after = self.plain.clone();
                let (before, frame) = (self.vram, self.frame);
                buffer.apply(&mut Drawn { before, after: &mut after, frame });
                Some(after)
            }
            _ => self.composed(effect),
        };
        after.filter(|after| *after != self.plain)
    }

    /// VRAM after a whole drawing with other registers and characters.
    fn drawn_by(&self, drawing: &Drawing, change: impl Fn(&mut [u8])) -> Vec<u8> {
        let mut vram = self.vram.to_vec();
        change(&mut vram);
        drawn(&mut vram, drawing, self.frame);
        restore(&mut vram, self.vram);
        vram
    }

    fn bkcol_zero(&self, eye: usize) -> Option<Vec<u8>> {
        if self.drawing.bkcol == 0 {
            return None;
        }
        let dark = self.drawn_by(&Drawing { bkcol: 0, ..self.drawing }, |_| {});
        let mut after = self.plain.clone();
        store(&mut after, self.frame, eye, &plane(&dark, self.frame, eye));
        Some(after)
    }

    /// Where the topmost dot has value 0 it is painted with the palette's lowest two bits. All dots cover: one drawing
    /// shows the others, one which dots have value 0, one what these are painted with.
    fn value_0_opaque(&self) -> Vec<u8> {
        let shade_of = |palettes: [u16; 4], shade: fn(u16) -> u16| palettes.map(shade);
        let by = |shade: fn(u16) -> u16, bkcol: u16, dot: fn(u16) -> u16| {
            let (gplt, jplt) =
                (shade_of(self.drawing.gplt, shade), shade_of(self.drawing.jplt, shade));
            let drawing = Drawing { gplt, jplt, bkcol, ..self.drawing };
            self.drawn_by(&drawing, |vram| map_dots(vram, dot))
        };
        let mut after = by(|palette| palette, self.drawing.bkcol, |dot| dot.max(1));
        let which = by(|_| 3 << 2, 0, |dot| if dot == 0 { 1 } else { 2 });
        let lowest = by(|palette| (palette & 3) << 2, 0, |_| 1);
        for eye in 0..2 {
            let mut picture = plane(&after, self.frame, eye);
            let painted = [plane(&which, self.frame, eye), filled(0)];
            let mut shade = [plane(&lowest, self.frame, eye), filled(0)];
            shade[0].iter_mut().zip(&painted[0]).for_each(|(shade, painted)| *shade &= painted);
            Layer { painted, shade }.over(0, &mut picture);
            store(&mut after, self.frame, eye, &picture);
        }
        after
    }

    /// What is drawn with a fault of the tables or of order.
    fn pieces(&self, effect: &Effect) -> Vec<Piece> {
        let (mut worlds, mut objects) = (None, None);
        if let Effect::Table(table) = effect {
            (worlds, objects) = (table.worlds(&self.worlds), table.objects(&self.objects));
        }
        Tables {
            worlds: worlds.as_ref().unwrap_or(&self.worlds),
            objects: objects.as_ref().unwrap_or(&self.objects),
            drawing: &self.drawing,
            effect,
        }
        .pieces()
    }

    /// Worlds and groups drawn one by one and laid over each other.
    fn composed(&self, effect: &Effect) -> Option<Vec<u8>> {
        let pieces = self.pieces(effect);
        if pieces == self.pieces && !pieces.iter().any(|piece| effect.changes(piece)) {
            return None;
        }
        let mut pictures = [filled(self.drawing.bkcol), filled(self.drawing.bkcol)];
        for piece in &pieces {
            let own;
            let layer = match self.pieces.iter().position(|plain| plain == piece) {
                Some(n) if !effect.changes(piece) => self.layer(n),
                _ => {
                    own = draw(self, piece, effect);
                    &own
                }
            };
            (0..2).for_each(|eye| layer.over(eye, &mut pictures[eye]));
        }
        let mut after = self.plain.clone();
        (0..2).for_each(|eye| store(&mut after, self.frame, eye, &pictures[eye]));
        Some(after)
    }

    /// The layer of a piece without a fault.
    fn layer(&self, n: usize) -> &Layer {
        self.layers[n].get_or_init(|| draw(self, &self.pieces[n], &Effect::Nothing))
    }

    /// Whether the scene, drawn piece by piece, is what the library draws at once.
    pub fn composes(&self) -> bool {
        let mut pictures = [filled(self.drawing.bkcol), filled(self.drawing.bkcol)];
        for n in 0..self.pieces.len() {
            (0..2).for_each(|eye| self.layer(n).over(eye, &mut pictures[eye]));
        }
        (0..2).all(|eye| pictures[eye] == plane(&self.plain, self.frame, eye))
    }
}
