//! Faults that are also built into the independent model, through [`Deviation`], and must give the same VRAM there.

use std::ops::Range;

use difftests::random::Random;
use difftests::scene::crowded;
use model::deviation::Deviation;
use model::drawing::draw_frame_by;
use model::world::{Eye, World, WorldKind};
use model::DrawingRegisters;

use super::registers;
use crate::faults::vip::{draw, list};

/// The faults that this file builds into the model.
const BUILT: [&str; 46] = [
    "vip.world.lon.0.stuck0",
    "vip.world.bgm.1.stuck0",
    "vip.world.gx.3.stuck1",
    "vip.world.h.2.stuck1",
    "vip.world.param.4.stuck0",
    "vip.world.overplane.7.stuck1",
    "vip.world.base.1-2.or",
    "vip.world.my.5-6.and",
    "vip.over.inverted",
    "vip.lon-ron.exchanged",
    "vip.object.jx.2.stuck0",
    "vip.object.jlon.0.stuck0",
    "vip.object.char.0.stuck1",
    "vip.object.flips.exchanged",
    "vip.cell.13.stuck1",
    "vip.cell.14.stuck0",
    "vip.cell.flips.exchanged",
    "vip.param.hbias.3.stuck0",
    "vip.param.mx.7.stuck1",
    "vip.param.dy.9.stuck0",
    "vip.gplt2.4.stuck1",
    "vip.jplt0.3.stuck0",
    "vip.bkcol.0.stuck1",
    "vip.spt2.5.stuck1",
    "vip.gplt.0-1.exchanged",
    "vip.char.number.9.stuck0",
    "vip.char.data.6.stuck1",
    "vip.map.number.2.stuck1",
    "vip.map.cell.6.stuck0",
    "vip.window.normal.left.one-less",
    "vip.window.hbias.top.one-less",
    "vip.window.affine.right.one-more",
    "vip.window.affine.left.one-less",
    "vip.window.normal.bottom.one-less",
    "vip.window.left.unsigned",
    "vip.order.group.counter.upwards",
    "vip.order.group.equal.empty",
    "vip.order.end.one-late",
    "vip.parallax.gp.ignored-left",
    "vip.parallax.affine-mp.sign",
    "vip.affine.x.truncated",
    "vip.affine.y.truncated",
    "vip.fb.data.5.right.stuck1",
    "vip.fb.address.7.stuck0",
    "vip.value0.opaque",
    "vip.object.left-of-screen.lost",
];

/// A die with the fault of this name.
struct Die(&'static str);

fn exchanged(half: u16, low: u16) -> u16 {
    half & !(3 * low) | (half & low) << 1 | half >> 1 & low
}

impl Deviation for Die {
    fn world_half(&self, n: usize, half: u16) -> u16 {
        match (self.0, n) {
            ("vip.world.lon.0.stuck0", 0) => half & 0x7FFF,
            ("vip.world.bgm.1.stuck0", 0) => half & 0xDFFF,
            ("vip.world.gx.3.stuck1", 1) => half | 8,
            ("vip.world.h.2.stuck1", 8) => half | 4,
            ("vip.world.param.4.stuck0", 9) => half & !16,
            ("vip.world.overplane.7.stuck1", 10) => half | 128,
            ("vip.world.base.1-2.or", 0) if half & 6 != 0 => half | 6,
            ("vip.world.my.5-6.and", 6) if half & 96 != 96 => half & !96,
            ("vip.over.inverted", 0) => half ^ 0x80,
            ("vip.lon-ron.exchanged", 0) => exchanged(half, 0x4000),
            _ => half,
        }
    }

    fn world(&self, mut world: World, eye: Eye) -> World {
        match self.0 {
            "vip.parallax.gp.ignored-left" if eye == Eye::Left => world.gp = 0,
            "vip.window.left.unsigned" if world.gx < 0 => world.gx += 1_024,
            _ => {}
        }
        world
    }

    fn draws_end(&self) -> bool {
        self.0 == "vip.order.end.one-late"
    }

    fn object_half(&self, n: usize, half: u16) -> u16 {
        match (self.0, n) {
            ("vip.object.jx.2.stuck0", 0) => half & !4,
            ("vip.object.jlon.0.stuck0", 1) => half & 0x7FFF,
            ("vip.object.char.0.stuck1", 3) => half | 1,
            ("vip.object.flips.exchanged", 3) => exchanged(half, 0x1000),
            _ => half,
        }
    }

    fn registers(&self, mut drawing: DrawingRegisters) -> DrawingRegisters {
        match self.0 {
            "vip.gplt2.4.stuck1" => drawing.gplt[2] |= 16,
            "vip.jplt0.3.stuck0" => drawing.jplt[0] &= !8,
            "vip.bkcol.0.stuck1" => drawing.bkcol |= 1,
            "vip.spt2.5.stuck1" => drawing.spt[2] |= 32,
            "vip.gplt.0-1.exchanged" => drawing.gplt.swap(0, 1),
            _ => {}
        }
        drawing
    }

    fn next_group(&self, group: usize) -> usize {
        match self.0 {
            "vip.order.group.counter.upwards" => [1, 2, 3, 0][group],
            _ => [3, 0, 1, 2][group],
        }
    }

    fn group_length(&self, drawing: &DrawingRegisters, group: usize, length: u32) -> u32 {
        let equal = group > 0 && drawing.spt[group] == drawing.spt[group - 1];
        if equal && self.0 == "vip.order.group.equal.empty" {
            0
        } else {
            length
        }
    }

    fn columns(&self, world: &World, columns: Range<i32>) -> Range<i32> {
        match (self.0, world.kind) {
            ("vip.window.normal.left.one-less", WorldKind::Normal)
            | ("vip.window.affine.left.one-less", WorldKind::Affine) => {
                columns.start - 1..columns.end.max(columns.start)
            }
            ("vip.window.affine.right.one-more", WorldKind::Affine) => {
                columns.start..columns.end + 1
            }
            _ => columns,
        }
    }

    fn rows(&self, world: &World, rows: Range<i32>) -> Range<i32> {
        match (self.0, world.kind) {
            ("vip.window.hbias.top.one-less", WorldKind::HBias) => rows.start - 1..rows.end,
            ("vip.window.normal.bottom.one-less", WorldKind::Normal) => rows.start..rows.end - 1,
            _ => rows,
        }
    }

    fn parameter(&self, kind: WorldKind, _eye: Eye, n: i32, half: u16) -> u16 {
        match (self.0, kind, n) {
            ("vip.param.hbias.3.stuck0", WorldKind::HBias, _) => half & !8,
            ("vip.param.mx.7.stuck1", WorldKind::Affine, 0) => half | 128,
            ("vip.param.dy.9.stuck0", WorldKind::Affine, 4) => half & !512,
            ("vip.parallax.affine-mp.sign", WorldKind::Affine, 1) => 0u16.wrapping_sub(half),
            _ => half,
        }
    }

    fn whole(&self, x: bool, along: i64) -> i64 {
        match (self.0, x) {
            ("vip.affine.x.truncated", true) | ("vip.affine.y.truncated", false) => along / 512,
            _ => along.div_euclid(512),
        }
    }

    fn map(&self, number: i32) -> i32 {
        number | if self.0 == "vip.map.number.2.stuck1" { 4 } else { 0 }
    }

    fn cell_number(&self, number: i32) -> i32 {
        number & !(if self.0 == "vip.map.cell.6.stuck0" { 64 } else { 0 })
    }

    fn cell(&self, cell: u16) -> u16 {
        match self.0 {
            "vip.cell.13.stuck1" => cell | 0x2000,
            "vip.cell.14.stuck0" => cell & 0xBFFF,
            "vip.cell.flips.exchanged" => exchanged(cell, 0x1000),
            _ => cell,
        }
    }

    fn character(&self, number: u32) -> u32 {
        number & !(if self.0 == "vip.char.number.9.stuck0" { 512 } else { 0 })
    }

    fn character_row(&self, half: u16) -> u16 {
        half | if self.0 == "vip.char.data.6.stuck1" { 64 } else { 0 }
    }

    fn shade(&self, palette: u16, value: u8, shade: Option<u8>) -> Option<u8> {
        match (self.0, value) {
            ("vip.value0.opaque", 0) => Some(palette as u8 % 4),
            _ => shade,
        }
    }

    fn draws_object(&self, left: i32) -> bool {
        self.0 != "vip.object.left-of-screen.lost" || left >= 0
    }

    fn stored(&self, eye: Eye, number: usize, half: u16) -> Option<(usize, u16)> {
        match self.0 {
            "vip.fb.data.5.right.stuck1" if eye == Eye::Right => Some((number, half | 32)),
            "vip.fb.address.7.stuck0" => Some((number & !128, half)),
            _ => Some((number, half)),
        }
    }
}

#[test]
fn a_fault_built_into_the_model_leaves_the_same_vram() {
    let list = list();
    for name in BUILT {
        let fault = list.iter().find(|fault| fault.name == name).expect(name);
        let mut acted = false;
        for seed in 0..300 {
            let scene = crowded(&mut Random::new(0xD1E + seed), 12);
            let (drawing, frame) = (registers(&scene), seed as u32 % 2);
            let mut injected = scene.vram.to_vec();
            draw(fault, &mut injected, &drawing, frame);
            let mut plain = scene.vram.to_vec();
            drawing.draw_frame(&mut plain, frame).expect("a random scene is accepted");
            acted |= injected != plain;
            // the model takes long: the first scenes, and then until the fault has acted
            if seed >= 4 && !acted {
                continue;
            }
            let mut modelled = scene.vram.to_vec();
            draw_frame_by(&Die(name), &mut modelled, &scene.drawing, frame).expect("accepted");
            assert!(injected == modelled, "{name}, seed {seed}");
            if seed >= 4 {
                break;
            }
        }
        assert!(acted, "{name} acts on none of the scenes");
    }
}
