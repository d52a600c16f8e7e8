//! The demo's pictures, by their recorded hash.

use sha2::{Digest, Sha256};
use vb::{Machine, Memories, VRAM_LENGTH, WRAM_LENGTH};

use crate::commands::demo::{interrupt, to_halt};
use crate::demo::rom;

/// SHA-256 of the demo's pixel values, a byte each: frame 0 and then frame 1, of each the left eye and then the right one,
/// row by row. The pictures kept with the tests, which the independent model drew, have the same.
pub const PICTURES: &str = "0bb97e3d8fe2e5085c67e06d8dc777648414723f092be3fffd76f197c5d94928";

/// Runs the demo and draws both its frames; other pixels than the recorded ones panic.
pub fn pictures() -> String {
    let rom = rom().expect("the demo assembles");
    let (mut wram, mut vram) = (vec![0; WRAM_LENGTH], vec![0; VRAM_LENGTH]);
    let mut machine = Machine::reset();
    let mut hash = Sha256::new();
    for frame in 0..2 {
        let mut memories = Memories { rom: &rom, wram: &mut wram, vram: &mut vram, pak: &mut [] };
        if frame == 1 {
            interrupt(&mut machine, &mut memories)
                .unwrap_or_else(|failure| panic!("{}", failure.message));
        }
        to_halt(&mut machine, &mut memories)
            .unwrap_or_else(|failure| panic!("{}", failure.message));
        machine.drawing.draw_frame(&mut vram, frame).expect("a frame of the demo is drawn");
        for eye in 0..2 {
            hash.update(values(&vram, eye, frame));
        }
    }
    let seen: String = hash.finalize().iter().map(|byte| format!("{byte:02x}")).collect();
    assert_eq!(seen, PICTURES, "the demo's pictures are not the recorded ones");
    "both frames, both eyes, are the recorded pictures".to_string()
}

/// The values 0 to 3 of an eye's picture, row by row.
fn values(vram: &[u8], eye: u32, frame: u32) -> Vec<u8> {
    let base = 0x8000 * frame as usize + 0x10000 * eye as usize;
    let pixel = |x: usize, y: usize| vram[base + 64 * x + y / 4] >> (2 * (y % 4)) & 3;
    (0..224).flat_map(|y| (0..384).map(move |x| (x, y))).map(|(x, y)| pixel(x, y)).collect()
}
