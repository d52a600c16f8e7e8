//! One frame for both eyes, frames 0 and 1 in turn, from memories whose
//! characters and maps are random.

use crate::{least, Row};

/// The halfwords of a world that the pictures change.
#[derive(Clone, Copy, Default)]
pub struct World {
    mode: u16,
    map: u16,
    mx: u16,
}

const PARAMETERS: u16 = 0x3000;

pub struct Scene {
    pub vram: Vec<u8>,
    pub drawing: vbsys::Drawing,
}

/// A number that looks random, the next after `state`.
fn random(state: &mut u64) -> u8 {
    *state = state.wrapping_mul(6_364_136_223_846_793_005).wrapping_add(1_442_695_040_888_963_407);
    (*state >> 56) as u8
}

impl Scene {
    /// Full-screen worlds from 31 down, then END.
    pub fn of(worlds: &[World]) -> Scene {
        let mut state = 1;
        let mut vram = vec![0; 262_144];
        vram[..0x3D800].iter_mut().for_each(|byte| *byte = random(&mut state));
        let drawing = vbsys::Drawing {
            spt: [0, 0, 1023, 1023],
            gplt: [0xE4, 0x6C, 0x9C, 0xD8],
            jplt: [0xB4, 0x78, 0xC4, 0x8C],
            bkcol: 1,
        };
        let mut scene = Scene { vram, drawing };
        for (i, World { mode, map, mx }) in worlds.iter().enumerate() {
            let flags = 0xC000 | mode << 12 | map;
            let halves = [flags, 0, 0, 0, *mx, 0, 0, 383, 223, PARAMETERS, 0];
            scene.halves(0x3D800 + 32 * (31 - i), &halves);
        }
        if worlds.len() < 32 {
            scene.halves(0x3D800 + 32 * (31 - worlds.len()), &[0x40]);
        }
        scene
    }

    fn halves(&mut self, at: usize, halves: &[u16]) {
        for (i, half) in halves.iter().enumerate() {
            self.vram[at + 2 * i..at + 2 * i + 2].copy_from_slice(&half.to_le_bytes());
        }
    }

    /// No character has a transparent pixel.
    fn opaque(mut self) -> Scene {
        for table in 0..4 {
            let at = 0x6000 + 0x8000 * table;
            self.vram[at..at + 0x2000].iter_mut().for_each(|byte| *byte |= 0x55);
        }
        self
    }

    pub fn parameters(mut self, halves: impl Iterator<Item = u16>) -> Scene {
        let at = 0x20000 + 2 * usize::from(PARAMETERS);
        self.halves(at, &halves.collect::<Vec<_>>());
        self
    }

    pub fn affine(self, row: impl Fn(u16) -> [u16; 5]) -> Scene {
        let padded = |j: u16| row(j).into_iter().chain([0; 3]);
        self.parameters((0..224).flat_map(padded))
    }

    pub fn objects(mut self) -> Scene {
        for i in 0..1024u16 {
            let halves = [(i * 37) % 376, 0xC000, (i * 53) % 216, (i & 3) << 14 | i];
            self.halves(0x3E000 + 8 * usize::from(i), &halves);
        }
        self
    }
}

/// Normal worlds, each with its own map and scroll.
pub fn many(count: u16) -> Vec<World> {
    (0..count).map(|i| World { map: i % 14, mx: 3 * i, ..World::default() }).collect()
}

pub fn one(mode: u16) -> [World; 1] {
    [World { mode, ..World::default() }]
}

/// A parameter for each eye and row of an H-bias world.
pub fn bias() -> impl Iterator<Item = u16> {
    (0..448u16).map(|k| ((k * 37) % 200).wrapping_sub(100))
}

/// Row j of a rotated affine world.
pub fn rotated(j: u16) -> [u16; 5] {
    [(3 * j).wrapping_neg(), 0, 7 * j, 444, 0u16.wrapping_sub(222)]
}

pub fn scenes() -> Vec<(&'static str, Scene)> {
    vec![
        ("empty", Scene::of(&[])),
        ("1 normal world, random characters", Scene::of(&many(1))),
        ("1 normal world, opaque characters", Scene::of(&many(1)).opaque()),
        ("8 normal worlds", Scene::of(&many(8))),
        ("31 normal worlds", Scene::of(&many(31))),
        ("1 H-bias world", Scene::of(&one(1)).parameters(bias())),
        ("1 affine world, rotated", Scene::of(&one(2)).affine(rotated)),
        ("1 affine world, flat", Scene::of(&one(2)).affine(|j| [0, 0, 8 * j, 512, 0])),
        ("1,024 objects", Scene::of(&one(3)).objects()),
    ]
}

pub fn rows() -> Vec<Row> {
    let row = |(what, mut scene): (&str, Scene)| Row {
        what: what.to_string(),
        library: library(&mut scene) / 1000.0,
        model: model(&mut scene) / 1000.0,
    };
    scenes().into_iter().map(row).collect()
}

fn library(scene: &mut Scene) -> f64 {
    let mut frame = 0;
    least(|| {
        frame = 1 - frame;
        assert_eq!(vbsys::draw_frame(&mut scene.vram, scene.drawing, frame), 0);
        1
    })
}

fn model(scene: &mut Scene) -> f64 {
    let vbsys::Drawing { spt, gplt, jplt, bkcol } = scene.drawing;
    let drawing = model::DrawingRegisters { spt, gplt, jplt, bkcol };
    let mut frame = 0;
    least(|| {
        frame = 1 - frame;
        assert_eq!(model::drawing::draw_frame(&mut scene.vram, &drawing, frame), Ok(()));
        1
    })
}
