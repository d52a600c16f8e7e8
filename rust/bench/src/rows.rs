//! Frames whose pixels are picked from character rows, with no cell or object
//! flipped, half of them and all. The library alone is timed, so that two
//! libraries are compared by running two builds of this program in turn.

use crate::draw::{bias, many, one, rotated, Scene};
use crate::least;

/// The maps' cells, and the last halfword of each of the 1,024 objects.
const CELLS: std::ops::Range<usize> = 0x20000..0x3D800;
const OBJECTS: usize = 0x3E000;
const FLIP: u8 = 0x20;

/// Every n-th cell and object is flipped horizontally; none where n is 0.
fn flipped(mut scene: Scene, n: usize) -> Scene {
    let cells = CELLS.step_by(2);
    let objects = (OBJECTS + 6..OBJECTS + 8192).step_by(8);
    for (k, at) in cells.chain(objects).enumerate() {
        let flip = n != 0 && k.wrapping_mul(0x9E37_79B9) / 0x100 % n == 0;
        let high = &mut scene.vram[at + 1];
        *high = *high & !FLIP | if flip { FLIP } else { 0 };
    }
    scene
}

fn frames(n: usize) -> [(&'static str, Scene); 4] {
    [
        ("31 normal worlds", flipped(Scene::of(&many(31)), n)),
        ("1 H-bias world", flipped(Scene::of(&one(1)), n).parameters(bias())),
        ("1 affine world, rotated", flipped(Scene::of(&one(2)), n).affine(rotated)),
        ("1,024 objects", flipped(Scene::of(&one(3)).objects(), n)),
    ]
}

/// Microseconds a frame.
fn time(mut scene: Scene) -> f64 {
    let mut frame = 0;
    let nanoseconds = least(|| {
        frame = 1 - frame;
        assert_eq!(vbsys::draw_frame(&mut scene.vram, scene.drawing, frame), 0);
        1
    });
    nanoseconds / 1000.0
}

pub fn print() {
    println!("\nDrawing: one frame, both eyes, µs\n");
    println!("| | no cell flipped | half flipped | all flipped |");
    println!("|---|---:|---:|---:|");
    let [none, half, all] = [0, 2, 1].map(frames);
    for (((what, none), (_, half)), (_, all)) in none.into_iter().zip(half).zip(all) {
        let [none, half, all] = [none, half, all].map(time);
        println!("| {what} | {none:.1} | {half:.1} | {all:.1} |");
    }
}
