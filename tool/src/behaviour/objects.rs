//! Objects, groups and registers of the scenes that were drawn.

use model::character::shade;
use model::object::{group_length, group_objects, GroupCounter, Object};
use model::world::{Eye, World, WorldKind, WORLDS};
use model::DrawingRegisters;

use super::table::{names, numbers, Table};
use super::worlds::{sign, Worlds};

pub struct Objects {
    slots: Table,
    looks: Table,
    eyes: Table,
    edges: Table,
    signs: Table,
    characters: Table,
    groups: Table,
    counts: Table,
    spt: Table,
    palettes: Table,
    bkcol: Table,
    buffers: Table,
}

/// Where a square of eight pixels lies on an axis.
fn place(start: i32, limit: i32) -> usize {
    match start {
        ..=-8 => 0,
        -7..=-1 => 1,
        _ if start <= limit - 8 => 2,
        _ if start < limit => 3,
        _ => 4,
    }
}

impl Objects {
    pub fn new() -> Objects {
        let flips = names(&["plain", "vertical flip", "horizontal flip", "both flips"]);
        let places = |before: &str, after: &str| {
            let all = [before, "over it", "inside", "over the other edge", after];
            names(&all)
        };
        let signs = |of: &str| {
            let all = ["negative", "0", "positive"];
            all.iter().map(|sign| format!("{of} {sign}")).collect::<Vec<_>>()
        };
        let bits = (0..10).flat_map(|n| [format!("bit {n} is 0"), format!("bit {n} is 1")]);
        let lengths = names(&["1 object", "several", "over the wrap", "1,024: SPT equal"]);
        let palettes = ["GPLT", "JPLT"].iter().flat_map(|name| numbers(name, 4)).collect();
        let table = Table::new;
        Objects {
            slots: table(
                "objects by slot",
                vec![numbers("32 from 32 * ", 32), numbers("group ", 4)],
            ),
            looks: table("looks of objects", vec![flips, numbers("JPLT", 4)]),
            eyes: table("eyes of objects", vec![names(&["none", "JRON", "JLON", "both"])]),
            edges: table(
                "places of objects",
                vec![
                    places("left of the screen", "right of the screen"),
                    names(&["over the top", "inside", "over the bottom", "below the screen"]),
                ],
            ),
            signs: table("parallax of objects", vec![signs("JX"), signs("JP")]),
            characters: table("characters of objects", vec![numbers("16 from 16 * ", 128)]),
            groups: table("groups", vec![numbers("group ", 4), lengths])
                .without(|place| place[0] == 0 && place[1] > 1),
            counts: table(
                "object worlds of a scene",
                vec![names(&["0", "1", "2", "3", "4", "5 or more"])],
            ),
            spt: table("SPT bits", vec![numbers("SPT", 4), bits.collect()]),
            palettes: table(
                "shades",
                vec![palettes, names(&["value 1", "value 2", "value 3"]), numbers("shade ", 4)],
            ),
            bkcol: table("BKCOL", vec![numbers("shade ", 4)]),
            buffers: table("frame buffers", vec![numbers("frame ", 2)]),
        }
    }

    /// A scene that is drawn: its worlds, groups and registers.
    pub fn scene(
        &mut self,
        vram: &[u8],
        drawing: &DrawingRegisters,
        frame: u32,
        worlds: &mut Worlds,
    ) {
        self.registers(drawing);
        self.buffers.mark(&[frame as usize]);
        let (mut counter, mut count) = (GroupCounter::start(), 0);
        for number in (0..WORLDS).rev() {
            let world = World::read(vram, number);
            worlds.see(vram, &world);
            if world.end {
                break;
            }
            if !world.is_dummy() && world.kind == WorldKind::Object {
                self.group(vram, drawing, counter.take());
                count += 1;
            }
        }
        self.counts.mark(&[count.min(5)]);
    }

    fn registers(&mut self, drawing: &DrawingRegisters) {
        let palettes = drawing.gplt.iter().chain(&drawing.jplt).enumerate();
        for (n, value) in palettes.flat_map(|palette| (1..4).map(move |value| (palette, value))) {
            let (n, palette) = n;
            let shade = shade(*palette, value).unwrap_or_default();
            self.palettes.mark(&[n, usize::from(value) - 1, usize::from(shade)]);
        }
        self.bkcol.mark(&[usize::from(drawing.bkcol)]);
        for (n, spt) in drawing.spt.iter().enumerate() {
            (0..10).for_each(|bit| self.spt.mark(&[n, 2 * bit + usize::from(spt >> bit & 1)]));
        }
    }

    fn group(&mut self, vram: &[u8], drawing: &DrawingRegisters, group: usize) {
        let (length, last) = (group_length(drawing, group), u32::from(drawing.spt[group]));
        let class = match length {
            1 => 0,
            1_024 if group > 0 => 3,
            _ if group > 0 && length > last + 1 => 2,
            _ => 1,
        };
        self.groups.mark(&[group, class]);
        for number in group_objects(drawing, group) {
            self.object(&Object::read(vram, number), group);
        }
    }

    fn object(&mut self, object: &Object, group: usize) {
        self.slots.mark(&[object.number as usize / 32, group]);
        let shown = 2 * usize::from(object.jlon) + usize::from(object.jron);
        self.eyes.mark(&[shown]);
        if shown == 0 {
            return;
        }
        self.looks.mark(&[
            usize::from(object.attributes >> 12 & 3),
            usize::from(object.attributes >> 14),
        ]);
        self.signs.mark(&[sign(object.jx.into()), sign(object.jp.into())]);
        self.characters.mark(&[usize::from(object.attributes & 0x7FF) / 16]);
        let row = match object.jy {
            249.. => 0,
            0..=216 => 1,
            217..=223 => 2,
            _ => 3,
        };
        for eye in Eye::BOTH.into_iter().filter(|eye| object.shown_to(*eye)) {
            self.edges.mark(&[place(object.start(eye), 384), row]);
        }
    }

    pub fn tables(&self) -> Vec<Table> {
        let all = [
            &self.slots,
            &self.looks,
            &self.eyes,
            &self.edges,
            &self.signs,
            &self.characters,
            &self.groups,
            &self.counts,
            &self.spt,
            &self.palettes,
            &self.bkcol,
            &self.buffers,
        ];
        all.into_iter().cloned().collect()
    }
}
