//! Random pictures, biased so that mistakes are visible: worlds of every kind,
//! windows off each edge, fields at their extremes, objects at every edge.

use crate::machine::{expect_same_bytes, to_library};
use crate::random::Random;
use model::{DrawingRegisters, Refusal};

/// VRAM and registers to draw from.
#[derive(Clone, Debug)]
pub struct Scene {
    pub vram: Box<[u8]>,
    pub drawing: DrawingRegisters,
}

/// BGM.
pub const NORMAL: u16 = 0;
pub const H_BIAS: u16 = 1;
pub const AFFINE: u16 = 2;
pub const OBJECT: u16 = 3;

const WORLD_TABLE: usize = 0x3D800;
const OBJECT_TABLE: usize = 0x3E000;

/// The halfwords of a world that drawing reads.
#[derive(Clone, Copy, Debug, Default)]
pub struct WorldHalves {
    pub flags: u16,
    pub gx: i32,
    pub gp: i32,
    pub gy: i32,
    pub mx: i32,
    pub mp: i32,
    pub my: i32,
    pub w: i32,
    pub h: i32,
    pub parameter_base: i32,
    pub overplane: i32,
}

impl Scene {
    /// Random bytes everywhere, one pixel in four transparent, and no world:
    /// each is a dummy until it is put.
    pub fn random(random: &mut Random) -> Scene {
        let mut vram = vec![0; 262_144].into_boxed_slice();
        random.fill(&mut vram);
        let mut scene = Scene { vram, drawing: random_palettes(random) };
        for world in 0..32 {
            let flags = scene.half(WORLD_TABLE + 32 * world) & !0xC040;
            scene.put_half(WORLD_TABLE + 32 * world, flags);
        }
        scene
    }

    pub fn half(&self, address: usize) -> u16 {
        u16::from_le_bytes([self.vram[address], self.vram[address + 1]])
    }

    pub fn put_half(&mut self, address: usize, half: u16) {
        self.vram[address..address + 2].copy_from_slice(&half.to_le_bytes());
    }

    /// Puts a world; the bits that drawing ignores stay random.
    pub fn put_world(&mut self, number: usize, world: &WorldHalves) {
        let fields = [
            (i32::from(world.flags), 0xFFCF),
            (world.gx, 0x03FF),
            (world.gp, 0x03FF),
            (world.gy, 0xFFFF),
            (world.mx, 0x1FFF),
            (world.mp, 0x7FFF),
            (world.my, 0x1FFF),
            (world.w, 0x1FFF),
            (world.h, 0xFFFF),
            (world.parameter_base, 0xFFFF),
            (world.overplane, 0xFFFF),
        ];
        for (n, (value, bits)) in fields.into_iter().enumerate() {
            let address = WORLD_TABLE + 32 * number + 2 * n;
            let half = self.half(address) & !bits | value as u16 & bits;
            self.put_half(address, half);
        }
    }

    /// Puts an object; the bits that drawing ignores stay random.
    pub fn put_object(&mut self, number: usize, jx: i32, jp: i32, jy: i32, shown: u16) {
        let address = OBJECT_TABLE + 8 * number;
        let fields =
            [(jx as u16, 0x3FF), (shown << 14 | jp as u16 & 0x3FF, 0xC3FF), (jy as u16, 0xFF)];
        for (n, (value, bits)) in fields.into_iter().enumerate() {
            let half = self.half(address + 2 * n) & !bits | value & bits;
            self.put_half(address + 2 * n, half);
        }
    }

    /// Puts END or takes it away.
    pub fn put_end(&mut self, world: usize, end: bool) {
        let address = WORLD_TABLE + 32 * world;
        let flags = self.half(address) & !0x40;
        self.put_half(address, flags | if end { 0x40 } else { 0 });
    }

    /// Makes about half of the characters opaque: no pixel of value 0.
    pub fn harden_characters(&mut self, random: &mut Random) {
        for table in [0x6000, 0xE000, 0x16000, 0x1E000] {
            for character in 0..512 {
                if random.one_in(2) {
                    continue;
                }
                for byte in &mut self.vram[table + 16 * character..][..16] {
                    let clear = !(*byte | *byte >> 1) & 0x55;
                    *byte |= clear;
                }
            }
        }
    }

    /// Puts random affine parameters that stay near the background where the
    /// given parameter base points.
    pub fn put_affine_rows(&mut self, random: &mut Random, base: u16, rows: u32) {
        let (dx, dy) = (random.between(-1_500, 1_500), random.between(-700, 700));
        for row in 0..rows {
            let values = [
                random.between(-8_000, 8_000),
                random.between(-40, 40),
                random.between(-8_000, 8_000),
                dx + random.between(-20, 20),
                dy + random.between(-20, 20),
            ];
            for (n, value) in values.into_iter().enumerate() {
                let index = u32::from(base) + 8 * row + n as u32;
                self.put_parameter(index, value as u16);
            }
        }
    }

    /// Puts a parameter, unless it would lie in the tables.
    fn put_parameter(&mut self, index: u32, value: u16) {
        let address = 0x20000 + 2 * (index as usize % 65_536);
        if address < WORLD_TABLE {
            self.put_half(address, value);
        }
    }
}

/// Registers whose palettes keep values distinct.
fn random_palettes(random: &mut Random) -> DrawingRegisters {
    let mut palette = || random.pick(&[0xE4u16, 0x1B, 0xD8, 0x6C, 0x27]) ^ random.half() & 3;
    DrawingRegisters {
        spt: [0; 4],
        gplt: [0; 4].map(|_: u16| palette()),
        jplt: [0; 4].map(|_: u16| palette()),
        bkcol: random.half() & 3,
    }
}

/// GX or JX: mostly on the image, and at both extremes.
pub fn biased_x(random: &mut Random) -> i32 {
    match random.below(8) {
        0 => random.pick(&[-512, -511, 511, 510]),
        1 => random.between(-12, 12),
        2 => random.between(372, 396),
        3 => random.between(-512, 511),
        _ => random.between(-60, 360),
    }
}

/// GP or JP: mostly small, and at both extremes.
pub fn biased_parallax(random: &mut Random) -> i32 {
    match random.below(8) {
        0 => random.pick(&[-512, -511, 511, 510]),
        1 => random.between(-512, 511),
        2 | 3 => 0,
        _ => random.between(-12, 12),
    }
}

/// GY: mostly on the image, some far above it.
pub fn biased_gy(random: &mut Random) -> i32 {
    match random.below(10) {
        0 => random.pick(&[-32_768, -32_767, 32_767, -1, 0, 223, 224, 216, 217]),
        1 => random.between(-32_768, -200),
        2 | 3 => random.between(-20, 10),
        4 => random.between(210, 230),
        _ => random.between(-40, 223),
    }
}

/// W: 0, around its sign bit, at its largest, or some width on the image.
fn biased_w(random: &mut Random) -> i32 {
    match random.below(8) {
        0 => random.pick(&[0, 1, 0x0FFE, 0x0FFF, 0x1000, 0x1001, 0x1FFF, 0x1FFE, 0x3FF, 0x400]),
        1 => 383,
        2 => random.between(0, 16),
        _ => random.between(0, 400),
    }
}

/// H: 0, around its sign bit, at its largest, or some height on the image.
fn biased_h(random: &mut Random, gy: i32) -> i32 {
    match random.below(8) {
        0 => random.pick(&[0, 0x7FFF, 0x7FFE, 0x8000, 0x8001, 0xFFFF, 0xFFFE]),
        1 | 2 => random.between(0, 9),
        3 => random.between(-gy, 240 - gy),
        _ => random.between(0, 240),
    }
}

/// MX, MY or another source position: inside, near an edge of the background,
/// or anywhere in its width.
fn biased_source(random: &mut Random, width: u32) -> i32 {
    match random.below(5) {
        0 => random.between(-16, 16),
        1 => random.pick(&[512, 1_024, 2_048, 4_095, -4_096]) + random.between(-20, 20),
        2 => random.between(-(1 << (width - 1)), (1 << (width - 1)) - 1),
        _ => random.between(-300, 1_000),
    }
}

/// A parameter base: anywhere, odd, or just below the wrap at 65,536.
fn biased_base(random: &mut Random) -> i32 {
    match random.below(4) {
        0 => 65_535 - random.between(0, 40),
        1 => random.between(0, 40_000) | 1,
        _ => random.between(0, 50_000),
    }
}

/// A background or object world with random fields.
pub fn random_world(random: &mut Random, kind: u16) -> WorldHalves {
    let shown = random.pick(&[0xC000u16, 0xC000, 0xC000, 0x8000, 0x4000]);
    let sizes = random.half() & 0x0F00;
    let over = if random.one_in(2) { 0x80 } else { 0 };
    let gy = biased_gy(random);
    WorldHalves {
        flags: shown | kind << 12 | sizes | over | random.half() & 0xF,
        gx: biased_x(random),
        gp: biased_parallax(random),
        gy,
        mx: biased_source(random, 13),
        mp: if random.one_in(4) { biased_source(random, 15) } else { random.between(-20, 20) },
        my: biased_source(random, 13),
        w: biased_w(random),
        h: biased_h(random, gy),
        parameter_base: biased_base(random),
        overplane: random.between(0, 65_535),
    }
}

/// A world that surely shows something: on the image, of usual size.
pub fn visible_world(random: &mut Random, kind: u16) -> WorldHalves {
    let mut world = random_world(random, kind);
    world.gx = random.between(-40, 300);
    world.gp = random.between(-20, 20);
    world.gy = random.between(-20, 200);
    world.w = random.between(40, 383);
    world.h = random.between(20, 223);
    world
}

/// Random objects, most of them on the image, and the registers of the groups.
pub fn put_objects(random: &mut Random, scene: &mut Scene) {
    for number in 0..1_024 {
        let jy = match random.below(4) {
            0 => random.between(216, 256),
            1 => random.between(248, 256),
            _ => random.between(0, 224),
        };
        let shown = random.pick(&[0u16, 1, 2, 3, 3, 3, 3, 3]);
        let (jx, jp) = (biased_x(random), biased_parallax(random));
        scene.put_object(number, jx, jp, jy, shown);
    }
    scene.drawing.spt = random_groups(random);
}

/// SPT0 to SPT3: rising, equal, falling (so that a group wraps), or extreme.
pub fn random_groups(random: &mut Random) -> [u16; 4] {
    let mut spt = [0; 4].map(|_: u16| random.half() & 0x3FF);
    match random.below(8) {
        0..=2 => spt.sort_unstable(),
        3 => spt[2] = spt[1],
        4 => spt = [spt[0]; 4],
        5 => spt = spt.map(|value| random.pick(&[0, 1, 1_022, 1_023, value])),
        6 => spt = [20, 40, 60, 80],
        _ => {}
    }
    spt
}

/// Up to `most` worlds of all kinds, some dummies between them, sometimes END.
pub fn crowded(random: &mut Random, most: u32) -> Scene {
    let mut scene = Scene::random(random);
    if random.one_in(2) {
        scene.harden_characters(random);
    }
    put_objects(random, &mut scene);
    let worlds = 1 + random.below(most);
    let kinds: &[u16] = match random.below(6) {
        0 => &[OBJECT],
        1 => &[NORMAL, H_BIAS, AFFINE],
        _ => &[NORMAL, H_BIAS, AFFINE, OBJECT],
    };
    for _ in 0..worlds {
        let number = random.below(32) as usize;
        let kind = random.pick(kinds);
        let world =
            if random.one_in(2) { visible_world(random, kind) } else { random_world(random, kind) };
        scene.put_world(number, &world);
        if kind == AFFINE && random.one_in(2) {
            scene.put_affine_rows(random, world.parameter_base as u16, 224);
        }
    }
    if random.one_in(3) {
        scene.put_end(random.below(32) as usize, true);
    }
    scene
}

/// What is drawn: a frame, or one strip of it.
#[derive(Clone, Copy, Debug, PartialEq, Eq)]
pub enum Draw {
    Frame { frame: u32 },
    Strip { frame: u32, strip: u32 },
}

/// The drawing made by the library; 01's refusal number.
pub fn draw_by_library(draw: Draw, vram: &mut [u8], drawing: &DrawingRegisters) -> u32 {
    let registers = to_library(drawing);
    match draw {
        Draw::Frame { frame } => vbsys::draw_frame(vram, registers, frame),
        Draw::Strip { frame, strip } => vbsys::draw_strip(vram, registers, frame, strip),
    }
}

/// The drawing made by the model; 01's refusal number.
pub fn draw_by_model(draw: Draw, vram: &mut [u8], drawing: &DrawingRegisters) -> u32 {
    let answer = match draw {
        Draw::Frame { frame } => model::drawing::draw_frame(vram, drawing, frame),
        Draw::Strip { frame, strip } => model::drawing::draw_strip(vram, drawing, frame, strip),
    };
    answer.err().map_or(0, Refusal::number)
}

/// Draws the scene on both sides and compares the whole of VRAM. Gives the
/// VRAM after the call.
pub fn expect_same_drawing(scene: &Scene, draw: Draw, what: &dyn Fn() -> String) -> Box<[u8]> {
    let (mut library, mut model) = (scene.vram.clone(), scene.vram.clone());
    let by_library = draw_by_library(draw, &mut library, &scene.drawing);
    let by_model = draw_by_model(draw, &mut model, &scene.drawing);
    assert_eq!(by_library, by_model, "refusal of {draw:?}; {}", what());
    expect_same_bytes("VRAM", &library, &model, &|| format!("{draw:?}; {}", what()));
    library
}
