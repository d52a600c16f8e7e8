//! One world, or some objects, drawn alone by the library: a VRAM of its own holds copies of what is read, so that records,
//! cells, parameters and the overplane's cell can change apart.

use vb::Drawing;

use super::layer::Layer;
use super::memory::Memory;
use super::tables::{
    Object, World, AFFINE, END, H_BIAS, OBJECTS, OBJECT_TABLE, SHOWN, WORLD_TABLE,
};
use super::window::{kind, Extent};

const MAPS: usize = 0x20000;
const MAP_BYTES: usize = 8_192;
/// The world's maps are copied to 0 to 7, its parameters to map 8 and the next, the overplane's cell to map 12.
const PARAMETERS: u16 = 8 * 4_096;
const OVERPLANE: u16 = 12 * 4_096;
/// Where the world stands that is drawn; END is in the one after it.
const DRAWN: usize = WORLD_TABLE + 32 * 31;
const LAST: usize = WORLD_TABLE + 32 * 30;

pub struct Stage {
    vram: Vec<u8>,
}

fn put(vram: &mut [u8], address: usize, half: u16) {
    vram[address..address + 2].copy_from_slice(&half.to_le_bytes());
}

fn half(vram: &[u8], address: usize) -> u16 {
    u16::from_le_bytes([vram[address], vram[address + 1]])
}

/// Where a parameter lies.
fn parameter(index: u16) -> usize {
    MAPS + 2 * usize::from(index)
}

impl Stage {
    /// An empty one with the characters of a scene.
    pub fn new(scene: &[u8]) -> Stage {
        let mut vram = vec![0; vb::VRAM_LENGTH];
        for table in [0x6000, 0xE000, 0x16000, 0x1E000] {
            vram[table..table + 0x2000].copy_from_slice(&scene[table..table + 0x2000]);
        }
        put(&mut vram, LAST, END);
        Stage { vram }
    }

    /// Puts a background world on it, for both eyes or for one.
    pub fn put_world(
        &mut self,
        scene: &[u8],
        world: &World,
        eye: Option<usize>,
        memory: Option<&Memory>,
    ) {
        self.copy_maps(scene, world, memory);
        let overplane = half(scene, MAPS + 2 * usize::from(world[10]));
        let overplane = memory.map_or(overplane, |memory| memory.cell(overplane));
        put(&mut self.vram, MAPS + 2 * usize::from(OVERPLANE), overplane);
        let base = self.copy_parameters(scene, world, eye, memory);
        let mut own = *world;
        own[0] &= !15 & eye.map_or(0xFFFF, |eye| !SHOWN[1 - eye]);
        (own[9], own[10]) = (base, OVERPLANE);
        for (n, value) in own.into_iter().enumerate() {
            put(&mut self.vram, DRAWN + 2 * n, value);
        }
    }

    fn copy_maps(&mut self, scene: &[u8], world: &World, memory: Option<&Memory>) {
        let count = 1 << (world[0] >> 10 & 3).wrapping_add(world[0] >> 8 & 3).min(3);
        for m in 0..count {
            let number = memory.map_or(usize::from((world[0] + m) & 15), |f| f.map(world, m));
            let from = &scene[MAPS + MAP_BYTES * number..][..MAP_BYTES];
            let to = &mut self.vram[MAPS + MAP_BYTES * usize::from(m)..][..MAP_BYTES];
            match memory {
                Some(memory @ (Memory::Cell(_) | Memory::MapCell(_))) => {
                    for (number, cell) in to.chunks_exact_mut(2).enumerate() {
                        let read = half(from, 2 * memory.cell_number(number));
                        cell.copy_from_slice(&memory.cell(read).to_le_bytes());
                    }
                }
                _ => to.copy_from_slice(from),
            }
        }
    }

    /// Copies the parameters of the rows that are seen; gives the parameter base of the copy.
    fn copy_parameters(
        &mut self,
        scene: &[u8],
        world: &World,
        eye: Option<usize>,
        memory: Option<&Memory>,
    ) -> u16 {
        let step = match kind(world) {
            H_BIAS => 2,
            AFFINE => 8,
            _ => return 0,
        };
        let extent = Extent::of(world, 0);
        let rows = extent.visible_rows();
        let first = rows.start - extent.top;
        for row in 0..rows.len() as i32 {
            let index = |n: i32| (i32::from(world[9]) + step * (first + row) + n) as u16;
            let read = |n: i32| {
                let index = memory.map_or(index(n), |memory| memory.parameter_index(index(n)));
                half(scene, parameter(index))
            };
            let to = PARAMETERS + (step * row) as u16;
            if step == 2 {
                for n in 0..2 {
                    let offset = memory.map_or(read(n), |memory| memory.h_bias(read(n)));
                    put(&mut self.vram, parameter(to + n as u16), offset);
                }
            } else {
                let mut values = [0, 1, 2, 3, 4].map(read);
                if let Some(memory) = memory {
                    memory.affine(&mut values, eye);
                }
                self.put_affine_row(row, values);
            }
        }
        (i32::from(PARAMETERS) - step * first) as u16
    }

    fn put_affine_row(&mut self, row: i32, values: [u16; 5]) {
        for (n, value) in values.into_iter().enumerate() {
            put(&mut self.vram, parameter(PARAMETERS + (8 * row) as u16 + n as u16), value);
        }
    }

    /// The parameters of an affine world's row, counted from the first that is seen.
    pub fn affine_row(&self, row: i32) -> [u16; 5] {
        let first = PARAMETERS + (8 * row) as u16;
        std::array::from_fn(|n| half(&self.vram, parameter(first + n as u16)))
    }

    /// Changes the parameters of each affine row that is seen.
    pub fn change_affine_rows(&mut self, rows: i32, change: impl Fn(&mut [u16; 5])) {
        for row in 0..rows {
            let mut values = self.affine_row(row);
            change(&mut values);
            self.put_affine_row(row, values);
        }
    }

    /// Puts up to 1,024 objects on it, the first one drawn first.
    pub fn put_objects(&mut self, objects: &[Object]) {
        for (number, object) in objects.iter().rev().enumerate() {
            for (n, value) in object.iter().enumerate() {
                put(&mut self.vram, OBJECT_TABLE + 8 * number + 2 * n, *value);
            }
        }
        put(&mut self.vram, DRAWN, SHOWN[0] | SHOWN[1] | OBJECTS << 12);
    }

    /// Draws what was put, over shade 0 and over shade 3.
    pub fn layer(&mut self, palettes: &Drawing, objects: usize) -> Layer {
        let last = (objects.max(1) - 1) as u16;
        let mut drawing = Drawing { spt: [0, 0, 1_023, last], bkcol: 0, ..*palettes };
        drawing.draw_frame(&mut self.vram, 0).expect("VRAM and registers of a scene");
        drawing.bkcol = 3;
        drawing.draw_frame(&mut self.vram, 1).expect("VRAM and registers of a scene");
        Layer::between(&self.vram)
    }
}
