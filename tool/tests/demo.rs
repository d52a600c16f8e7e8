//! `vbmodel demo` as a new user tries it, its pictures compared with those that the independent model made.

mod common;

use std::path::Path;

use common::{pixel, Folder, Rgb, HEIGHT, WIDTH};
use model::floating::Floating;
use model::instruction::{decode, Decoded, Instruction};
use model::number::half_at;
use model::processor::{reset, step};
use model::{drawing, DrawingRegisters, Memories, Mode, StepAnswer};

/// What the demo's program leaves for a frame, and which floating instructions it executed on the way.
struct Frame {
    vram: Vec<u8>,
    registers: DrawingRegisters,
    floating: Vec<Floating>,
}

/// The demo's ROM run by the independent model alone.
fn by_the_model(rom: &[u8]) -> Vec<Frame> {
    let (mut wram, mut vram) = (vec![0; 65_536], vec![0; 262_144]);
    let (mut processor, mut registers) = reset();
    let mut frames = Vec::new();
    for frame in 0..2 {
        let mut memories = Memories { rom, wram: &mut wram, vram: &mut vram, pak: &mut [] };
        if frame > 0 {
            // the VIP's interrupt ends the HALT
            processor.hardware.lines = 0x10;
            let stepped = step(&mut memories, &mut processor, &mut registers).unwrap();
            assert_eq!(stepped.answer, StepAnswer::Interrupted(4));
            processor.hardware.lines = 0;
        }
        let mut floating = Vec::new();
        while processor.mode != Mode::Halted {
            floating.extend(floating_at(rom, processor.pc));
            let stepped = step(&mut memories, &mut processor, &mut registers).unwrap();
            assert_eq!(stepped.answer, StepAnswer::Ended, "at 0x{:08X}", processor.pc);
        }
        frames.push(Frame { vram: vram.clone(), registers, floating });
    }
    frames
}

/// The floating instruction at an address of the ROM, all of which the program is in.
fn floating_at(rom: &[u8], pc: u32) -> Option<Floating> {
    let half = |at: u32| half_at(rom, at as usize % rom.len());
    match decode(half(pc), half(pc.wrapping_add(2))) {
        Decoded::Instruction { instruction: Instruction::Float { operation, .. }, .. } => {
            Some(operation)
        }
        _ => None,
    }
}

/// A frame drawn by the independent model: values of the left, then the right eye, row by row.
fn drawn(frame: usize, vram: &[u8], registers: &DrawingRegisters) -> Vec<u8> {
    let mut vram = vram.to_vec();
    drawing::draw_frame(&mut vram, registers, frame as u32).unwrap();
    let place = |n: usize| (n % (2 * WIDTH), n / (2 * WIDTH));
    let value = |(x, y)| pixel(&vram, frame, x / WIDTH, x % WIDTH, y);
    (0..2 * WIDTH * HEIGHT).map(place).map(value).collect()
}

fn golden(frame: usize) -> std::path::PathBuf {
    Path::new(env!("CARGO_MANIFEST_DIR"))
        .join(format!("tests/golden/frame{frame}-side-by-side.png"))
}

/// With GOLDEN=write the independent model's pictures become the golden ones.
#[test]
fn the_golden_pictures_are_the_models_and_the_library_draws_them() {
    let folder = Folder::with_demo("golden");
    for (frame, left) in by_the_model(&folder.read("out/rom.bin")).iter().enumerate() {
        let model = Rgb::png(2 * WIDTH, &drawn(frame, &left.vram, &left.registers));
        if std::env::var("GOLDEN").as_deref() == Ok("write") {
            std::fs::write(golden(frame), &model).unwrap();
        }
        let golden = Rgb::read(&std::fs::read(golden(frame)).unwrap());
        assert!(golden == Rgb::read(&model), "frame {frame}: the model draws another picture");
        let drawn = Rgb::read(&folder.read(&format!("out/frame{frame}-side-by-side.png")));
        assert!(golden == drawn, "frame {frame}: the library draws another picture");
    }
}

/// The whole number nearest to a quotient; none of those below lies in the middle between two.
fn nearest(dividend: i64, divisor: i64) -> i64 {
    assert_ne!((2 * dividend).rem_euclid(2 * divisor), divisor);
    (2 * dividend + divisor).div_euclid(2 * divisor)
}

/// MX, MP, MY, DX and DY of row j of the moon, in whole numbers: after n turns its cosine and its sine are the parts of
/// (12 + 5i)^n over 13^n.
fn moon_row(frame: u32, j: i64) -> [i64; 5] {
    let turned = |(c, s): (i64, i64)| (12 * c - 5 * s, 5 * c + 12 * s);
    let (c, s) = (0..=frame).fold((1, 0), |turn, _| turned(turn));
    let unit = 13i64.pow(frame + 1);
    let along = 8 * j - 252;
    let mx = nearest(256 * unit - 252 * c - along * s, unit);
    let my = nearest(256 * unit - 252 * s + along * c, unit);
    [mx, 0, my, nearest(512 * c, unit), nearest(512 * s, unit)]
}

/// The same of the pier's row, d rows below the horizon.
fn pier_row(frame: u32, d: i64) -> [i64; 5] {
    let dx = 76_800 / d;
    [2_048 - 3 * dx, ((203 * d) >> 10) - 12, 9_392 - 192 * i64::from(frame) - 144_000 / d, dx, 0]
}

fn parameters(vram: &[u8], address: usize, j: usize) -> [i64; 5] {
    [0, 2, 4, 6, 8].map(|n| i64::from(half_at(vram, address + 16 * j + n) as i16))
}

/// W4: the program works out the moon's turn and the pier's distances by floating instructions, and the picture shows
/// what they gave.
#[test]
fn floating_instructions_turn_the_moon_and_lay_the_pier() {
    const MOON: usize = 0x39800;
    const PIER: usize = 0x38000;
    let folder = Folder::with_demo("demo-floating");
    let frames = by_the_model(&folder.read("out/rom.bin"));
    for (number, frame) in (0..).zip(&frames) {
        for j in 0..64 {
            let expected = moon_row(number, j as i64);
            assert_eq!(parameters(&frame.vram, MOON, j), expected, "frame {number}, moon, row {j}");
        }
        for j in 0..102 {
            let expected = pier_row(number, j as i64 + 10);
            assert_eq!(parameters(&frame.vram, PIER, j), expected, "frame {number}, pier, row {j}");
        }
        for (operation, least) in [
            (Floating::FromWord, 64 + 102),
            (Floating::Multiply, 2 * 64),
            (Floating::Add, 64),
            (Floating::Subtract, 64),
            (Floating::ToWord, 2 * 64),
            (Floating::Divide, 102),
            (Floating::Truncate, 102),
        ] {
            let count = frame.floating.iter().filter(|&&executed| executed == operation).count();
            assert!(count >= least, "frame {number}: {operation:?} {count} times");
        }
        // where they give nothing, the picture is another
        let shown = drawn(number as usize, &frame.vram, &frame.registers);
        for (address, rows, least) in [(MOON, 64, 2_000), (PIER, 102, 10_000)] {
            let mut vram = frame.vram.clone();
            vram[address..address + 16 * rows].fill(0);
            let without = drawn(number as usize, &vram, &frame.registers);
            let differ = shown.iter().zip(&without).filter(|(a, b)| a != b).count();
            assert!(differ > least, "frame {number}: {differ} pixels show 0x{address:X}");
        }
    }
    // the library's run left the same parameters
    let vram = folder.read("out/vram.bin");
    assert_eq!(vram[MOON..MOON + 1_024], frames[1].vram[MOON..MOON + 1_024]);
    assert_eq!(vram[PIER..PIER + 1_632], frames[1].vram[PIER..PIER + 1_632]);
}

#[test]
fn it_says_what_was_run_and_where_the_pictures_are() {
    let folder = Folder::new("demo-text");
    let ran = folder.vbmodel("demo");
    assert_eq!((ran.status, ran.error.as_str()), (0, ""));
    for part in ["from reset", "ROM of 65,536 bytes", "frame 0:", "frame 1:", "HALT"] {
        assert!(ran.text.contains(part), "{part}: {}", ran.text);
    }
    assert_eq!(folder.names(), ["out/"]);
    for frame in 0..2 {
        for view in ["left", "right", "side-by-side", "anaglyph"] {
            let name = format!("out/frame{frame}-{view}.png");
            assert!(ran.text.contains(&name), "{name}: {}", ran.text);
            let picture = Rgb::read(&folder.read(&name));
            let wide = if view == "side-by-side" { 4 } else { 2 };
            assert_eq!((picture.width, picture.height), (wide * WIDTH, 2 * HEIGHT), "{name}");
        }
    }
    for (name, length) in [
        ("rom.bin", 65_536),
        ("wram.bin", 65_536),
        ("vram.bin", 262_144),
        ("processor.bin", 180),
        ("drawing.bin", 26),
    ] {
        assert_eq!(folder.read(&format!("out/{name}")).len(), length, "{name}");
    }
}

#[test]
fn its_pictures_fit_each_other() {
    let folder = Folder::with_demo("demo-views");
    let read = |view: &str| Rgb::read(&folder.read(&format!("out/frame0-{view}.png")));
    let (left, right) = (read("left"), read("right"));
    let (both, anaglyph) = (read("side-by-side"), read("anaglyph"));
    let mut apart = 0;
    for y in 0..HEIGHT {
        for x in 0..WIDTH {
            let (l, r) = (left.at(x, y), right.at(x, y));
            assert_eq!((both.at(x, y), both.at(WIDTH + x, y)), (l, r));
            assert_eq!(anaglyph.at(x, y), [l[0], r[0], r[0]]);
            assert_eq!((l[1], l[2]), (0, 0));
            apart += usize::from(l != r);
        }
    }
    assert!(apart > 10_000, "the eyes see different pictures: {apart} pixels");
    for shade in [0x00, 0x55, 0xAA, 0xFF] {
        let count = left.pixels.iter().filter(|pixel| pixel[0] == shade).count();
        assert!(count > 2_000, "shade {shade:02X} has {count} pixels");
    }
}

#[test]
fn all_four_kinds_of_world_and_objects_are_seen() {
    let folder = Folder::with_demo("demo-kinds");
    let scene = "--vram out/vram.bin --drawing out/drawing.bin";
    for (pixel, kind) in [
        ("left 60 95", "normal: source"),
        ("left 300 40", "affine: source"),
        ("left 20 118", "H-bias: source"),
        ("left 150 218", "affine: source"),
        ("right 192 128", "group 1, object"),
        ("left 75 120", "group 3, object"),
    ] {
        let ran = folder.vbmodel(&format!("why {pixel} {scene}"));
        let shown = ran.text.lines().find(|line| line.ends_with("<- the pixel")).unwrap_or("");
        assert!(shown.contains(kind), "{pixel}: {}", ran.text);
    }
}

#[test]
fn a_scale_makes_squares() {
    let folder = Folder::new("demo-scale");
    assert_eq!(folder.vbmodel("demo --out a --scale 1").status, 0);
    assert_eq!(folder.vbmodel("demo --out b/c --scale 3").status, 0);
    let small = Rgb::read(&folder.read("a/frame1-anaglyph.png"));
    let large = Rgb::read(&folder.read("b/c/frame1-anaglyph.png"));
    assert_eq!((large.width, large.height), (3 * WIDTH, 3 * HEIGHT));
    for y in 0..3 * HEIGHT {
        for x in 0..3 * WIDTH {
            assert_eq!(large.at(x, y), small.at(x / 3, y / 3));
        }
    }
}

#[test]
fn a_folder_that_cannot_be_written_is_reported() {
    let folder = Folder::new("demo-unwritable");
    folder.write("file", b"x");
    let before = folder.names();
    let ran = folder.vbmodel("demo --out file/pictures");
    assert_eq!(ran.status, 2);
    assert!(ran.error.starts_with("vbmodel: file/pictures/frame0-left.png: "), "{}", ran.error);
    assert!(ran.error.trim_end().ends_with("nothing was written"), "{}", ran.error);
    assert_eq!(folder.names(), before);
    // a name in the way of the last file: none of the earlier ones may appear
    std::fs::create_dir_all(folder.path("half/drawing.bin")).unwrap();
    let ran = folder.vbmodel("demo --out half");
    assert_eq!(ran.error, "vbmodel: half/drawing.bin: is a folder; nothing was written\n");
    assert_eq!(std::fs::read_dir(folder.path("half")).unwrap().count(), 1);
}
