//! Worlds, objects, cells, palettes and images, bit by bit: as the model decodes them, and as the library draws them.

use crate::page::{mask, number, table};
use model::character;
use model::object::Object;
use model::world::{Eye, World, WorldKind};

fn vram_with(at: usize, half: u16) -> Vec<u8> {
    let mut vram = vec![0; vb::VRAM_LENGTH];
    vram[at..at + 2].copy_from_slice(&half.to_le_bytes());
    vram
}

/// A field's value where all of its bits are set and no other: the largest, or -1 where it is signed.
fn all_set(row: &[String], bits: &str) -> i32 {
    let low = mask(bits).trailing_zeros();
    if row.iter().any(|cell| cell.contains("signed") && !cell.contains("unsigned;")) {
        -1
    } else {
        (mask(bits) >> low) as i32
    }
}

/// Every field of a world by the page's names, in the model's record.
fn world_fields(world: &World) -> [(&'static str, i32); 18] {
    let kind = match world.kind {
        WorldKind::Normal => 0,
        WorldKind::HBias => 1,
        WorldKind::Affine => 2,
        WorldKind::Object => 3,
    };
    [
        ("LON", world.lon.into()),
        ("RON", world.ron.into()),
        ("BGM", kind),
        ("SCX", world.scx as i32),
        ("SCY", world.scy as i32),
        ("OVER", world.over.into()),
        ("END", world.end.into()),
        ("BASE", world.base as i32),
        ("GX", world.gx),
        ("GP", world.gp),
        ("GY", world.gy),
        ("MX", world.mx),
        ("MP", world.mp),
        ("MY", world.my),
        ("W", world.w),
        ("H", world.h),
        ("PARAM", world.parameter_base.into()),
        ("OVERPLANE", world.overplane.into()),
    ]
}

#[test]
fn every_bit_of_a_world() {
    let rows = table("Worlds", "Halfword");
    assert_eq!(rows.len(), 18);
    for row in rows {
        let (half, bits) = (number(&row[0]) as usize, mask(&row[1]));
        for n in [0, 31] {
            let at = 0x3D800 + 32 * n as usize + 2 * half;
            let world = World::read(&vram_with(at, bits as u16), n);
            for (name, value) in world_fields(&world) {
                let expected = if name == row[2] { all_set(&row, &row[1]) } else { 0 };
                assert_eq!(value, expected, "{name}, {row:?}");
            }
            // no other bit belongs to it
            let world = World::read(&vram_with(at, !bits as u16), n);
            let field = world_fields(&world).into_iter().find(|(name, _)| *name == row[2]);
            assert_eq!(field.unwrap().1, 0, "{row:?}");
        }
    }
    // an affine world's width has ten bits and no sign
    let mut vram = vram_with(0x3D800, 0x2000);
    vram[0x3D80E..0x3D810].copy_from_slice(&[0xFF, 0xFF]);
    assert_eq!(World::read(&vram, 0).w, 0x3FF);
}

#[test]
fn every_bit_of_an_object() {
    for row in table("Objects", "Halfword") {
        let (half, bits) = (number(&row[0]) as usize, mask(&row[1]));
        let vram = vram_with(0x3E000 + 8 * 1_023 + 2 * half, bits as u16);
        let object = Object::read(&vram, 1_023);
        let dot = character::dot(&vram, object.attributes, 0, 0);
        let fields = [
            ("JX", object.jx),
            ("JLON", object.jlon.into()),
            ("JRON", object.jron.into()),
            ("JP", object.jp),
            ("JY", object.jy),
            ("JPLTS", dot.palette as i32),
            ("JHFLP", dot.flipped_horizontally.into()),
            ("JVFLP", dot.flipped_vertically.into()),
            ("JCA", dot.character as i32),
        ];
        for (name, value) in fields {
            let expected = if name == row[2] { all_set(&row, &row[1]) } else { 0 };
            assert_eq!(value, expected, "{name}, {row:?}");
        }
    }
}

#[test]
fn every_bit_of_a_cell() {
    let vram = vec![0; vb::VRAM_LENGTH];
    for row in table("Characters, palettes and cells", "Bits of a cell") {
        let dot = character::dot(&vram, mask(&row[0]) as u16, 0, 0);
        let fields = [
            ("GPLTS", dot.palette as i32),
            ("BHFLP", dot.flipped_horizontally.into()),
            ("BVFLP", dot.flipped_vertically.into()),
            ("Character", dot.character as i32),
        ];
        for (name, value) in fields {
            let expected = if name == row[1] { all_set(&row, &row[0]) } else { 0 };
            assert_eq!(value, expected, "{name}, {row:?}");
        }
    }
}

#[test]
fn the_parameters_of_a_row() {
    let rows = table("Worlds", "BGM");
    assert_eq!(rows.len(), 4);
    let parameters: Vec<_> = table("Worlds", "BGM | Halfword k of row j");
    for (kind, eye, names) in [
        (1, Eye::Left, &["HOFSTL"][..]),
        (1, Eye::Right, &["HOFSTR"]),
        (2, Eye::Left, &["MX", "MP", "MY", "DX", "DY"]),
    ] {
        let mut vram = vram_with(0x3D800, kind << 12);
        vram[0x3D812..0x3D814].copy_from_slice(&100u16.to_le_bytes());
        let world = World::read(&vram, 0);
        for j in [0, 7] {
            let expected: Vec<usize> = names
                .iter()
                .map(|name| {
                    let of_kind = |row: &&Vec<String>| row[0] == kind.to_string();
                    let row = parameters.iter().filter(of_kind).find(|row| row[2] == *name);
                    0x20000 + 2 * (100 + halfword(&row.expect("the row")[1], j))
                })
                .collect();
            assert_eq!(world.parameters(eye, j as i32), expected, "{kind} {eye:?} {j}");
        }
    }
}

/// `8j + 3` of a row.
fn halfword(text: &str, j: usize) -> usize {
    let (times, plus) = text.split_once('j').unwrap();
    let plus = plus.trim_start_matches([' ', '+']);
    number(times) as usize * j + if plus.is_empty() { 0 } else { number(plus) as usize }
}

#[test]
fn palettes_and_images() {
    for row in table("Characters, palettes and cells", "Bits of a palette") {
        let value = number(&row[1]) as u8;
        assert_eq!(character::shade(mask(&row[0]) as u16, value), Some(3), "{row:?}");
        assert_eq!(character::shade(!mask(&row[0]) as u16, value), Some(0), "{row:?}");
    }
    for row in table("Images and column table", "Frame") {
        let eye = u32::from(row[1] == "right");
        let at = vb::image_offset(number(&row[0]), eye);
        assert_eq!(at as u32, number(&row[2]), "{row:?}");
        // the library draws there and nowhere else: BKCOL 3 everywhere
        let mut vram = vec![0; vb::VRAM_LENGTH];
        let drawing = vbsys::Drawing { bkcol: 3, ..Default::default() };
        assert_eq!(vbsys::draw_frame(&mut vram, drawing, number(&row[0])), 0);
        assert_eq!((vram[at], vram[at + 64 * 383 + 55]), (0xFF, 0xFF), "{row:?}");
        assert_eq!((vram[at + 56], vram[at + vb::IMAGE_LENGTH]), (0, 0), "{row:?}");
    }
}
