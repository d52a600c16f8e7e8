//! Refusals 3, 5, 7 and 8 of the strip, the frame and the character lookup:
//! both sides of each limit, every combination of broken conditions, and the
//! character lookup itself.

use difftests::machine::{drawings_about_limits, register, VRAM_LENGTHS};
use difftests::random::Random;
use difftests::scene::{crowded, draw_by_library, draw_by_model, Draw};
use model::DrawingRegisters;

/// VRAM of a length, with a picture as far as it fits.
fn vram_of(length: usize) -> Box<[u8]> {
    let scene = crowded(&mut Random::new(0xAE_0001), 12);
    let mut vram = vec![0x5A; length].into_boxed_slice();
    let common = length.min(scene.vram.len());
    vram[..common].copy_from_slice(&scene.vram[..common]);
    vram
}

const ACCEPTED: DrawingRegisters =
    DrawingRegisters { spt: [0x3FF; 4], gplt: [0xFF; 4], jplt: [0xFF; 4], bkcol: 3 };

/// Makes the call on both sides; `expected` is the number by 01's table.
fn expect_number(draw: Draw, length: usize, drawing: &DrawingRegisters, expected: u32) {
    let before = vram_of(length);
    let (mut library, mut model) = (before.clone(), before.clone());
    let what = format!("{draw:?}, VRAM {length}, {drawing:X?}");
    assert_eq!(draw_by_library(draw, &mut library, drawing), expected, "the library: {what}");
    assert_eq!(draw_by_model(draw, &mut model, drawing), expected, "the model: {what}");
    assert!(library == model, "{what}");
    if expected != 0 {
        assert!(library == before, "a refusal stores: {what}");
    }
}

#[test]
fn strip_numbers() {
    for (strip, expected) in [(0, 0), (27, 0), (28, 8), (31, 8), (256, 8), (0xFFFF_FFFF, 8)] {
        for frame in 0..2 {
            expect_number(Draw::Strip { frame, strip }, 262_144, &ACCEPTED, expected);
        }
    }
}

#[test]
fn frame_numbers() {
    for (frame, expected) in [(0, 0), (1, 0), (2, 7), (3, 7), (0x100, 7), (0xFFFF_FFFF, 7)] {
        expect_number(Draw::Frame { frame }, 262_144, &ACCEPTED, expected);
        expect_number(Draw::Strip { frame, strip: 27 }, 262_144, &ACCEPTED, expected);
    }
}

#[test]
fn vram_lengths() {
    for (length, expected) in VRAM_LENGTHS {
        expect_number(Draw::Frame { frame: 0 }, length, &ACCEPTED, expected);
        expect_number(Draw::Strip { frame: 1, strip: 0 }, length, &ACCEPTED, expected);
    }
}

#[test]
fn register_widths() {
    for (drawing, expected) in drawings_about_limits(&ACCEPTED) {
        expect_number(Draw::Frame { frame: 0 }, 262_144, &drawing, expected);
        expect_number(Draw::Strip { frame: 0, strip: 3 }, 262_144, &drawing, expected);
    }
}

/// Every set of broken conditions among 3, 5, 7 and 8.
#[test]
fn the_lowest_number_wins() {
    for set in 0..16u32 {
        let broken = |bit: u32| set >> bit & 1 == 1;
        for length in if broken(0) { vec![262_143, 262_145] } else { vec![262_144] } {
            for number in if broken(1) { vec![0, 5, 11, 12] } else { vec![13] } {
                let mut drawing = ACCEPTED;
                if number < 13 {
                    let (register, largest) = register(&mut drawing, number);
                    *register = largest + 1;
                }
                let frame = if broken(2) { 2 } else { 1 };
                let strip = if broken(3) { 28 } else { 27 };
                let first = [(0, 3), (1, 5), (2, 7)].into_iter().find(|(bit, _)| broken(*bit));
                let of_frame = first.map_or(0, |(_, number)| number);
                let of_strip = if of_frame == 0 && broken(3) { 8 } else { of_frame };
                expect_number(Draw::Frame { frame }, length, &drawing, of_frame);
                expect_number(Draw::Strip { frame, strip }, length, &drawing, of_strip);
            }
        }
    }
}

/// Every character: the part begins at its address and has 16 bytes.
#[test]
fn every_character() {
    let vram = vram_of(262_144);
    for number in 0..2_048 {
        let part = vbsys::character(&vram, number);
        let model = model::character::character(&vram, number).unwrap();
        assert_eq!((part.refusal, part.length), (0, 16), "character {number}");
        let start = part.offset as usize;
        assert_eq!(start, model::character::character_address(number), "character {number}");
        assert_eq!(&vram[start..start + 16], model, "character {number}");
    }
}

/// A refused lookup has length 0, and its offset is 0 by vb.h ("its other
/// answers are 0").
#[test]
fn refused_characters() {
    for length in [0, 262_143, 262_144, 262_145, 524_288] {
        let vram = vram_of(length);
        for number in [0, 511, 2_047, 2_048, 4_096, 65_536, 0xFFFF_FFFF] {
            let part = vbsys::character(&vram, number);
            let expected = match (length, number) {
                (262_144, 0..=2_047) => 0,
                (262_144, _) => 8,
                _ => 3,
            };
            assert_eq!(part.refusal, expected, "character {number}, VRAM {length}");
            let model = model::character::character(&vram, number);
            assert_eq!(model.err().map_or(0, model::Refusal::number), expected);
            if expected != 0 {
                let place = (part.offset, part.length);
                assert_eq!(place, (0, 0), "character {number}, VRAM {length}");
            }
        }
    }
}
