//! 01's worked rows about drawing, and facts of 000's VIP chapters.

use model::answers::{answers, Covered, Fate};
use model::background::map_number;
use model::character::{character, character_address, shade};
use model::drawing::{draw_frame, draw_strip, image_address, pixel, pixel_place};
use model::object::{group_length, group_objects, GroupCounter};
use model::world::{Eye, World, WorldKind};
use model::{DrawingRegisters, Refusal};

const PLAIN: DrawingRegisters =
    DrawingRegisters { spt: [0; 4], gplt: [0xE4; 4], jplt: [0xE4; 4], bkcol: 0 };

fn put_half(vram: &mut [u8], address: usize, half: u16) {
    vram[address..address + 2].copy_from_slice(&half.to_le_bytes());
}

/// VRAM whose world 31 has these halfwords, and whose world 30 has END. Every
/// cell is character 0, every pixel of which is 3.
fn one_world(halves: &[u16]) -> Vec<u8> {
    let mut vram = vec![0; 262_144];
    vram[0x6000..0x6010].fill(0xFF);
    for (n, &half) in halves.iter().enumerate() {
        put_half(&mut vram, 0x3D800 + 32 * 31 + 2 * n, half);
    }
    put_half(&mut vram, 0x3D800 + 32 * 30, 0x40);
    vram
}

/// The columns of row `y` that have value 3.
fn lit_columns(vram: &[u8], eye: Eye, y: u32) -> Vec<u32> {
    (0..384).filter(|&x| pixel(vram, 0, eye, x, y) == 3).collect()
}

fn lit_rows(vram: &[u8], eye: Eye, x: u32) -> Vec<u32> {
    (0..224).filter(|&y| pixel(vram, 0, eye, x, y) == 3).collect()
}

#[test]
fn rows_of_the_worked_table() {
    assert_eq!(character_address(513), 0xE010);
    assert_eq!(pixel_place(1, 9), (66, 2));
    for value in 1..=3 {
        assert_eq!(shade(0xE4, value), Some(value));
    }
    assert_eq!(shade(0xE4, 0), None);
}

/// The last worked row: W 0, GX 383, GP 1 is left column 382, right none.
#[test]
fn a_column_at_the_right_edge() {
    let mut vram = one_world(&[0xC000, 383, 1, 0, 0, 0, 0, 0, 223, 0, 0]);
    draw_frame(&mut vram, &PLAIN, 0).unwrap();
    assert_eq!(lit_columns(&vram, Eye::Left, 100), [382]);
    assert_eq!(lit_columns(&vram, Eye::Right, 100), []);
}

#[test]
fn a_negative_start_stays_negative() {
    let mut vram = one_world(&[0xC000, -5i16 as u16, 0, 0, 0, 0, 0, 7, 223, 0, 0]);
    draw_frame(&mut vram, &PLAIN, 0).unwrap();
    assert_eq!(lit_columns(&vram, Eye::Left, 0), [0, 1, 2]);
}

#[test]
fn heights_of_worlds() {
    for (gy, h, rows, affine_rows) in worked::HEIGHTS {
        for (flags, rows) in [(0xC000, rows), (0xD000, rows), (0xE000, affine_rows)] {
            let halves = [flags, 0, 0, gy as u16, 0, 0, 0, 383, h as u16, 0x9000, 0];
            let mut vram = one_world(&halves);
            let world = World::read(&vram, 31);
            assert_eq!((world.stored_rows(), world.rows()), (h + 1, rows), "{halves:X?}");
            draw_frame(&mut vram, &PLAIN, 0).unwrap();
            let expected: Vec<u32> =
                (gy..gy + rows).filter(|y| (0..224).contains(y)).map(|y| y as u32).collect();
            assert_eq!(lit_rows(&vram, Eye::Right, 0), expected, "{halves:X?}");
        }
    }
}

/// W3 in its own words: "at least everything from GY to the end of the strip
/// holding it", and of the rows that H + 1 does not give, no other.
#[test]
fn added_rows_end_with_their_strip() {
    for gy in 0..224 {
        for h in [-32_768, -1, 0, 1, 2, 6, 7, 8, 40] {
            let halves = [0xC000, 0, 0, gy as u16, 0, 0, 0, 0, h as u16, 0, 0];
            let rows = World::read(&one_world(&halves), 31).visible_rows();
            for y in 0..224 {
                let in_strip = y >= gy && y / 8 == gy / 8;
                let stored = y >= gy && y < gy + h + 1;
                assert_eq!(rows.contains(&y), in_strip || stored, "GY {gy}, H {h}, row {y}");
            }
        }
    }
}

/// No strip holds GY above or below the image: no row is added to H + 1.
#[test]
fn where_no_strip_holds_gy_a_world_has_h_plus_1_rows() {
    for gy in (-16..0).chain(224..240).chain([-32_768, 32_767]) {
        for h in (-3..=17).chain([-32_768, 32_767]) {
            for flags in [0xC000, 0xD000, 0xE000] {
                let halves = [flags, 0, 0, gy as u16, 0, 0, 0, 0, h as u16, 0, 0];
                let world = World::read(&one_world(&halves), 31);
                assert_eq!(world.rows(), (h + 1).max(0), "{halves:X?}");
                for y in 0..224 {
                    let due = gy <= y && y <= gy + h;
                    assert_eq!(world.visible_rows().contains(&y), due, "{halves:X?}, row {y}");
                }
            }
        }
    }
}

/// Worked rows of the image, and the accounts of their pixels.
#[test]
fn rows_of_the_image_that_a_short_world_lights() {
    for (gy, h, due) in [
        (-1, 0, vec![]),
        (-3, 1, vec![]),
        (-3, 5, vec![0, 1, 2]),
        (-7, 6, vec![]),
        (-7, 7, vec![0]),
        (224, 0, vec![]),
        (224, 32_767, vec![]),
        (3, 1, vec![3, 4, 5, 6, 7]),
    ] {
        for flags in [0xC000, 0xD000] {
            let mut vram = one_world(&[flags, 0, 0, gy as u16, 0, 0, 0, 383, h as u16, 0x9000, 0]);
            draw_frame(&mut vram, &PLAIN, 0).unwrap();
            for eye in Eye::BOTH {
                assert_eq!(lit_rows(&vram, eye, 9), due, "{flags:X}, GY {gy}, H {h}, {eye:?}");
                for y in 0..224 {
                    let account = answers(&vram, &PLAIN, eye, 9, y).unwrap();
                    assert_eq!(account.covering_worlds(), usize::from(due.contains(&y)));
                }
            }
        }
    }
}

/// The account of a pixel of an added row shows both heights.
#[test]
fn accounts_show_both_heights() {
    let vram = one_world(&[0xD000, 0, 0, 3, 0, 0, 0, 383, 1, 0x9000, 0]);
    for (y, covered) in [(2, false), (3, true), (4, true), (5, true), (7, true), (8, false)] {
        let account = answers(&vram, &PLAIN, Eye::Left, 0, y).unwrap();
        assert_eq!(account.covering.len(), usize::from(covered), "row {y}");
        for covering in &account.covering {
            let Covered::Background { stored_rows, rows, .. } = covering.what else {
                panic!("{account:?}");
            };
            assert_eq!((stored_rows, rows), (2, 5));
        }
    }
}

/// An H-bias world's added rows have their own parameters, row j's.
#[test]
fn added_rows_have_their_own_parameters() {
    let mut vram = one_world(&[0xD000, 0, 0, 3, 0, 0, 0, 383, 1, 0xFFF9, 0]);
    put_half(&mut vram, 0x20002, 5);
    let world = World::read(&vram, 31);
    assert_eq!(world.parameters(Eye::Left, 4), [0x20002]);
    assert_eq!(world.source_row(&vram, Eye::Left, 4).at(0), (5, 4));
}

/// 000's arrangement of 4 by 4 maps, and 4 by 2.
#[test]
fn arrangements_of_maps() {
    let world = |scx: u16, scy: u16| World::read(&one_world(&[0xC000 | scx << 10 | scy << 8]), 31);
    let map = |world: &World| {
        let (columns, rows) = (1 << world.scx, 1 << world.scy);
        (0..rows)
            .map(|row| (0..columns).map(|column| map_number(world, column, row)).collect())
            .collect::<Vec<Vec<i32>>>()
    };
    assert_eq!(map(&world(2, 2)), [[0, 1, 0, 1], [2, 3, 2, 3], [4, 5, 4, 5], [6, 7, 6, 7]]);
    assert_eq!(map(&world(2, 1)), [[0, 1, 2, 3], [4, 5, 6, 7]]);
    assert_eq!(map(&world(3, 0)), [[0, 1, 2, 3, 4, 5, 6, 7]]);
    assert_eq!(map(&world(1, 3))[7], [7, 7]);
}

/// The base is as stored, and map numbers wrap at 16.
#[test]
fn map_numbers_wrap() {
    let world = World::read(&one_world(&[0xC000 | 1 << 10 | 15]), 31);
    assert_eq!([map_number(&world, 0, 0), map_number(&world, 1, 0)], [15, 0]);
}

#[test]
fn widths_by_kind() {
    let columns =
        |flags: u16, w: u16| World::read(&one_world(&[flags, 0, 0, 0, 0, 0, 0, w]), 31).columns();
    assert_eq!(columns(0xC000, 0x0FFF), 4_096);
    assert_eq!(columns(0xC000, 0x1FFF), 0);
    assert_eq!(columns(0xD000, 0x1000), -4_095);
    assert_eq!(columns(0xE000, 0xFFFF), 1_024);
}

#[test]
fn affine_sources_are_floored() {
    let mut vram = one_world(&[0xE000, 0, 0, 0, 0, 0, 0, 383, 0, 0, 0]);
    for (n, value) in [-1i16, 3, 0, -256, 512].into_iter().enumerate() {
        put_half(&mut vram, 0x20000 + 2 * n, value as u16);
    }
    let world = World::read(&vram, 31);
    let left = world.source_row(&vram, Eye::Left, 0);
    assert_eq!([left.at(0), left.at(1), left.at(2)], [(-1, 0), (-1, 1), (-2, 2)]);
    let right = world.source_row(&vram, Eye::Right, 0);
    assert_eq!(right.at(0), left.at(3));
    put_half(&mut vram, 0x20002, -3i16 as u16);
    assert_eq!(world.source_row(&vram, Eye::Left, 0).at(0), left.at(3));
    assert_eq!(world.source_row(&vram, Eye::Right, 0).at(0), left.at(0));
}

/// Parameters wrap at 65,536 halfwords; an odd base changes no rule (R6).
#[test]
fn parameter_addresses() {
    let world = World::read(&one_world(&[0xD000, 0, 0, 0, 0, 0, 0, 0, 0, 0xFFFF]), 31);
    assert_eq!(world.parameters(Eye::Left, 0), [0x3FFFE]);
    assert_eq!(world.parameters(Eye::Right, 0), [0x20000]);
    assert_eq!(world.parameters(Eye::Right, 1), [0x20004]);
    assert_eq!(world.kind, WorldKind::HBias);
}

#[test]
fn groups() {
    let drawing = DrawingRegisters { spt: [2, 5, 5, 1], ..PLAIN };
    assert_eq!(group_objects(&drawing, 0).collect::<Vec<_>>(), [2, 1, 0]);
    assert_eq!(group_objects(&drawing, 1).collect::<Vec<_>>(), [5, 4, 3]);
    assert_eq!(group_length(&drawing, 2), 1_024);
    assert_eq!(group_objects(&drawing, 2).next(), Some(5));
    let wrapping: Vec<u32> = group_objects(&drawing, 3).collect();
    assert_eq!((wrapping.len(), wrapping[0], wrapping[2], wrapping[1_019]), (1_020, 1, 1_023, 6));
    let mut counter = GroupCounter::start();
    assert_eq!([(); 6].map(|()| counter.take()), [3, 2, 1, 0, 3, 2]);
}

/// An object above the top edge, by JY near 256; its world hides no eye (R7).
#[test]
fn an_object_above_the_top_edge() {
    let mut vram = one_world(&[0x7000]);
    for (n, half) in [4, 0xC001, 254, 0].into_iter().enumerate() {
        put_half(&mut vram, 0x3E000 + 2 * n, half);
    }
    let drawing = DrawingRegisters { spt: [1_023, 1_023, 1_023, 0], ..PLAIN };
    draw_frame(&mut vram, &drawing, 0).unwrap();
    assert_eq!(lit_columns(&vram, Eye::Left, 5), (3..11).collect::<Vec<_>>());
    assert_eq!(lit_columns(&vram, Eye::Right, 5), (5..13).collect::<Vec<_>>());
    assert_eq!(lit_columns(&vram, Eye::Left, 6), []);
}

#[test]
fn images_lie_where_the_memory_map_says() {
    assert_eq!(image_address(0, Eye::Left), 0);
    assert_eq!(image_address(1, Eye::Left), 0x8000);
    assert_eq!(image_address(0, Eye::Right), 0x10000);
    assert_eq!(image_address(1, Eye::Right), 0x18000);
}

/// A strip stores its own rows alone; rows 224 to 255 are never written.
#[test]
fn a_strip_stores_its_own_rows() {
    let mut vram = vec![0x55; 262_144];
    let drawing = DrawingRegisters { bkcol: 2, ..PLAIN };
    put_half(&mut vram, 0x3D800 + 32 * 31, 0x40);
    let before = vram.clone();
    draw_strip(&mut vram, &drawing, 1, 27).unwrap();
    for at in 0..262_144 {
        let image = at % 0x10000;
        let inside = at < 0x20000 && (0x8000..0xE000).contains(&image);
        let drawn = inside && (54..56).contains(&(image % 64));
        assert_eq!(vram[at], if drawn { 0xAA } else { before[at] }, "{at:X}");
    }
}

#[test]
fn refusals() {
    let mut vram = vec![0; 262_144];
    let wide = DrawingRegisters { bkcol: 4, ..PLAIN };
    assert_eq!(draw_strip(&mut vram, &PLAIN, 1, 27), Ok(()));
    assert_eq!(draw_strip(&mut vram, &PLAIN, 0, 28), Err(Refusal::StripOrCharacter));
    assert_eq!(draw_strip(&mut vram, &PLAIN, 2, 28), Err(Refusal::Frame));
    assert_eq!(draw_strip(&mut vram, &wide, 2, 28), Err(Refusal::Register));
    assert_eq!(draw_strip(&mut vram[1..], &wide, 2, 28), Err(Refusal::VramLength));
    assert_eq!(draw_frame(&mut vram, &PLAIN, 2), Err(Refusal::Frame));
    assert_eq!(character(&vram, 2_047).map(<[u8]>::len), Ok(16));
    assert_eq!(character(&vram, 2_048), Err(Refusal::StripOrCharacter));
    assert_eq!(character(&vram[1..], 2_048), Err(Refusal::VramLength));
}

/// W5's statement: of every row halfword, column and flip the value's two bits
/// are bits 2p and 2p + 1, p the column or, flipped, 7 - column.
#[test]
fn values_of_every_character_row() {
    let mut vram = vec![0; 262_144];
    for row in 0..=0xFFFF {
        put_half(&mut vram, 0x6000, row);
        for column in 0..8 {
            for (attributes, p) in [(0, column), (0x2000, 7 - column)] {
                let value = model::character::dot(&vram, attributes, column, 0).value;
                let bits = [row >> (2 * p) & 1, row >> (2 * p + 1) & 1];
                assert_eq!(u16::from(value), bits[0] + 2 * bits[1], "{row:04X}, {column}");
            }
        }
    }
}

/// The account of one pixel under an affine world, and after END.
#[test]
fn answers_of_a_pixel() {
    let vram = one_world(&[0xE000, 0, 0, 0, 0, 0, 0, 383, 223, 0x9000, 0]);
    let account = answers(&vram, &PLAIN, Eye::Left, 7, 9).unwrap();
    assert_eq!(account.worlds, [(31, Fate::Covers), (30, Fate::End)]);
    assert_eq!((account.shade(), account.end()), (3, Some(30)));
    assert_eq!(account.bytes().len(), 14);
    let Covered::Background { offset, source, cell_address, ref parameters, .. } =
        account.covering[0].what
    else {
        panic!("{account:?}");
    };
    assert_eq!((offset, source, cell_address), ((7, 9), (0, 0), 0x20000));
    assert_eq!(parameters[0], 0x20000 + 2 * (0x9000 + 72));
    assert_eq!(account.covering[0].dot.row_address, 0x6000);
}
