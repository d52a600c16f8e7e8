//! Character rows (W5): every row halfword, at every column, flipped and not, is
//! shown by each painter of pixels: normal, H-bias and affine worlds and
//! objects. Each image is compared with the model's, and each pixel with the two
//! bits that document 01 names.

use difftests::random::Random;
use difftests::scene::{
    expect_same_drawing, Draw, Scene, WorldHalves, AFFINE, H_BIAS, NORMAL, OBJECT,
};
use model::character::character_address;
use model::drawing::pixel;
use model::world::Eye;

/// Cells that an image shows: 48 by 28.
const CELLS: u32 = 48 * 28;
/// Row halfwords that the characters hold at once.
const ROWS: u32 = 2_048 * 8;
const H_FLIP: u16 = 0x2000;
const V_FLIP: u16 = 0x1000;

/// A scene without worlds, whose palettes show each value as itself, and whose
/// characters have the row halfwords from `16,384 * quarter` on.
fn characters(quarter: u32) -> Scene {
    let mut scene = Scene::random(&mut Random::new(0x5001_0000 + u64::from(quarter)));
    scene.drawing.gplt = [0xE4; 4];
    scene.drawing.jplt = [0xE4; 4];
    scene.drawing.bkcol = 0;
    for number in 0..ROWS {
        let address = character_address(number / 8) + 2 * (number % 8) as usize;
        scene.put_half(address, (ROWS * quarter + number) as u16);
    }
    scene
}

/// The row halfword that cell `cell` shows in its row `y`.
fn row_shown(quarter: u32, character: u32, flips: u16, y: u32) -> u32 {
    let row = if flips & V_FLIP != 0 { 7 - y } else { y };
    ROWS * quarter + 8 * character + row
}

/// The bits of 01: columns 2p and 2p + 1 of the row, p mirrored where flipped.
fn value_of(row: u32, column: u32, flips: u16) -> u8 {
    let p = if flips & H_FLIP != 0 { 7 - column } else { column };
    (row >> (2 * p) & 1 | (row >> (2 * p + 1) & 1) << 1) as u8
}

/// Which rows, columns and flips were seen.
struct Seen(Vec<bool>);

impl Seen {
    fn new() -> Seen {
        Seen(vec![false; 65_536 * 8 * 2])
    }

    fn see(&mut self, row: u32, column: u32, flips: u16) {
        let flipped = u32::from(flips & H_FLIP != 0);
        self.0[((row * 8 + column) * 2 + flipped) as usize] = true;
    }

    fn expect_all(&self) {
        let missing = self.0.iter().filter(|seen| !**seen).count();
        assert_eq!(missing, 0, "rows, columns and flips that no frame showed");
    }
}

/// Puts a background world over the whole image, map 0 at its corner.
fn put_background(scene: &mut Scene, kind: u16) {
    let world = WorldHalves {
        flags: 0xC000 | kind << 12,
        w: 383,
        h: 223,
        parameter_base: 0x8000,
        ..WorldHalves::default()
    };
    scene.put_world(31, &world);
    for index in 0..224 * 8 {
        // affine: source x is the column, source y the row; H-bias: no bias
        let row = index as u16 / 8;
        let value = match (kind, index % 8) {
            (AFFINE, 2) => 8 * row,
            (AFFINE, 3) => 512,
            _ => 0,
        };
        scene.put_half(0x20000 + 2 * (0x8000 + index), value);
    }
}

/// Puts cells into map 0: characters from `first` on, as many as an image shows.
fn put_cells(scene: &mut Scene, first: u32, flips: u16) {
    for cell in 0..CELLS {
        let address = 0x20000 + 2 * (64 * (cell / 48) + cell % 48) as usize;
        scene.put_half(address, ((first + cell) % 2_048) as u16 | flips);
    }
}

/// Checks every pixel of both images against 01's bits.
fn expect_values(vram: &[u8], quarter: u32, first: u32, flips: u16, cells: u32, seen: &mut Seen) {
    for cell in 0..cells {
        let character = (first + cell) % 2_048;
        let (left, top) = (8 * (cell % 48), 8 * (cell / 48));
        for (y, x) in (0..8).flat_map(|y| (0..8).map(move |x| (y, x))) {
            let row = row_shown(quarter, character, flips, y);
            for eye in Eye::BOTH {
                let found = pixel(vram, 0, eye, left + x, top + y);
                assert_eq!(found, value_of(row, x, flips), "row {row:04X}, column {x}, {flips:X}");
            }
            seen.see(row, x, flips);
        }
    }
}

/// Every row, column and flip as cells of a background world of one kind.
fn every_row_of_background(kind: u16) {
    let mut seen = Seen::new();
    for quarter in 0..4 {
        let mut scene = characters(quarter);
        put_background(&mut scene, kind);
        for flips in [0, H_FLIP, V_FLIP, H_FLIP | V_FLIP] {
            for first in [0, CELLS] {
                put_cells(&mut scene, first, flips);
                let what = || format!("kind {kind}, characters from {first}, flips {flips:X}");
                let vram = expect_same_drawing(&scene, Draw::Frame { frame: 0 }, &what);
                expect_values(&vram, quarter, first, flips, CELLS, &mut seen);
            }
        }
    }
    seen.expect_all();
}

#[test]
fn every_row_of_normal_worlds() {
    every_row_of_background(NORMAL);
}

#[test]
fn every_row_of_h_bias_worlds() {
    every_row_of_background(H_BIAS);
}

#[test]
fn every_row_of_affine_worlds() {
    every_row_of_background(AFFINE);
}

/// Every row, column and flip as objects: 1,024 of them side by side, so that
/// two groups of characters make one quarter.
#[test]
fn every_row_of_objects() {
    let mut seen = Seen::new();
    for quarter in 0..4 {
        let mut scene = characters(quarter);
        scene.drawing.spt = [0, 0, 1_023, 1_023];
        scene.put_world(31, &WorldHalves { flags: 0xC000 | OBJECT << 12, ..Default::default() });
        for flips in [0, H_FLIP, V_FLIP, H_FLIP | V_FLIP] {
            for first in [0, 1_024] {
                for number in 0..1_024 {
                    let (x, y) = (8 * (number % 48), 8 * (number / 48));
                    scene.put_object(number as usize, x, 0, y, 3);
                    let attributes = (first + number) as u16 | flips;
                    scene.put_half(0x3E000 + 8 * number as usize + 6, attributes);
                }
                let what = || format!("objects, characters from {first}, flips {flips:X}");
                let vram = expect_same_drawing(&scene, Draw::Frame { frame: 0 }, &what);
                expect_values(&vram, quarter, first as u32, flips, 1_024, &mut seen);
            }
        }
    }
    seen.expect_all();
}

/// Cells that a window or the image cuts: every start within a cell, every length
/// up to three cells, both flips, both edges of the image.
#[test]
fn cells_that_are_cut() {
    let mut random = Random::new(0x5002_0000);
    for (kind, start) in
        [NORMAL, H_BIAS, AFFINE].into_iter().flat_map(|k| (0..8).map(move |s| (k, s)))
    {
        let mut scene = characters(random.below(4));
        put_background(&mut scene, kind);
        put_cells(&mut scene, random.below(2_048), random.pick(&[0, H_FLIP]));
        for length in 1..=24 {
            let world = WorldHalves {
                flags: 0xC000 | kind << 12 | random.half() & 0x0F80,
                gx: random.pick(&[-5, -1, 0, 3, 360, 371, 383]),
                gp: random.between(-8, 8),
                gy: random.between(0, 8),
                mx: start + random.between(-2, 2) * 8,
                mp: random.between(-8, 8),
                w: length - 1,
                h: random.between(0, 15),
                parameter_base: 0x8000,
                overplane: random.between(0, 65_535),
                ..WorldHalves::default()
            };
            scene.put_world(31, &world);
            let draw = Draw::Strip { frame: 1, strip: random.below(3) };
            expect_same_drawing(&scene, draw, &|| format!("{world:?}"));
        }
    }
}

/// Values under separate palettes: each of the 256 values of a palette, by a
/// background world and by an object.
#[test]
fn every_palette() {
    for palette in 0..256u16 {
        let mut scene = characters(u32::from(palette) % 4);
        scene.drawing.gplt = [palette; 4];
        scene.drawing.jplt = [palette ^ 0xFF; 4];
        scene.drawing.spt = [0, 0, 1_023, 47];
        put_background(&mut scene, NORMAL);
        put_cells(&mut scene, 8 * u32::from(palette), H_FLIP);
        scene.put_world(30, &WorldHalves { flags: 0xC000 | OBJECT << 12, ..Default::default() });
        for number in 0..48 {
            scene.put_object(number as usize, 8 * number, 0, 4, 3);
        }
        let draw = Draw::Strip { frame: 0, strip: 0 };
        expect_same_drawing(&scene, draw, &|| format!("palette {palette:02X}"));
    }
}
