//! `vbmodel draw --brightness`, with pictures read back.

mod common;

use common::{pixel, Folder, Rgb, HEIGHT, WIDTH};

const SCENE: &str = "--vram out/vram.bin --drawing out/drawing.bin --frame 1";

/// The red of a brightness.
fn red(level: u32) -> u8 {
    ((255 * level.min(128) + 64) / 128) as u8
}

#[test]
fn brightness_is_scaled_to_full_red() {
    let folder = Folder::with_demo("brightness");
    let mut vram = folder.read("out/vram.bin");
    for entry in 0..256 {
        vram[0x3DC01 + 2 * entry] = entry as u8 / 64;
        vram[0x3DE01 + 2 * entry] = 3 - entry as u8 / 64;
    }
    folder.write("out/vram.bin", &vram);
    let ran = folder.vbmodel(&format!(
        "draw {SCENE} --brightness --brta 9 --brtb 30 --brtc 7 --start 200 --out a --save-vram a/vram.bin"
    ));
    let written = "frame 1 drawn, both eyes\nwritten: a/frame1-left-brightness.png\nwritten: \
                   a/frame1-right-brightness.png\nwritten: a/vram.bin\n";
    assert_eq!((ran.status, ran.text.as_str(), ran.error.as_str()), (0, written, ""));
    let vram = folder.read("a/vram.bin");
    for (eye, name) in ["left", "right"].iter().enumerate() {
        let picture = Rgb::read(&folder.read(&format!("a/frame1-{name}-brightness.png")));
        assert_eq!((picture.width, picture.height), (WIDTH, HEIGHT));
        for y in 0..HEIGHT {
            for x in 0..WIDTH {
                let time = [0, 9, 30, 46][pixel(&vram, 1, eye, x, y) as usize];
                let high = vram[0x3DC01 + 0x200 * eye + 2 * (200 - x / 4)];
                assert_eq!(picture.at(x, y), [red(time * (u32::from(high) + 1)), 0, 0]);
            }
        }
    }
}

#[test]
fn the_recommended_table_shows_each_shade_once() {
    let folder = Folder::with_demo("brightness-recommended");
    let command = format!("draw {SCENE} --brightness --recommended-table --eye all --scale 2");
    let ran = folder.vbmodel(&format!("{command} --out a --save-vram a/vram.bin --json"));
    assert_eq!(
        ran.text,
        "{\"frame\": 1, \"scale\": 2, \"as_is\": false, \"written\": [\"a/frame1-left-brightness.png\", \
         \"a/frame1-right-brightness.png\", \"a/frame1-side-by-side-brightness.png\", \"a/vram.bin\"]}\n"
    );
    let vram = folder.read("a/vram.bin");
    assert_eq!(vram[0x3DC00..0x3DC02], [0xFE, 0]);
    let picture = Rgb::read(&folder.read("a/frame1-side-by-side-brightness.png"));
    assert_eq!((picture.width, picture.height), (4 * WIDTH, 2 * HEIGHT));
    for (x, y) in [(0, 0), (192, 120), (383, 223), (220, 40)] {
        for eye in 0..2 {
            let level = [0, 32, 64, 128][pixel(&vram, 1, eye, x, y) as usize];
            let at = picture.at(2 * (x + eye * WIDTH), 2 * y + 1);
            assert_eq!(at, [red(level), 0, 0], "eye {eye}, pixel ({x}, {y})");
        }
    }
}

#[test]
fn brightness_is_refused_as_the_library_says() {
    let folder = Folder::with_demo("brightness-refused");
    for (start, said) in [
        ("94", "refusal 15: the column table is to start at entry 94; "),
        ("256", "refusal 15: the column table is to start at entry 256; "),
    ] {
        let said = format!(
            "vbmodel: {said}a start is from 95 to 255, since 384 columns use 96 entries downwards"
        );
        folder.refused(&format!("draw {SCENE} --brightness --start {start} --out a"), &said);
    }
    folder.refused(
        &format!("draw {SCENE} --brightness --eye anaglyph --out a"),
        "vbmodel: --brightness has no anaglyph: take left, right, both, side-by-side or all",
    );
    for lone in ["--brta 3", "--start 95", "--recommended-table"] {
        let ran = folder.vbmodel(&format!("draw {SCENE} {lone} --out a"));
        assert!(ran.status == 2 && ran.error.contains("--brightness"), "{lone}: {}", ran.error);
    }
    let ran = folder.vbmodel(&format!("draw {SCENE} --brightness --brta 256 --out a"));
    assert!(ran.status == 2 && ran.error.contains("256"), "{}", ran.error);
}

#[test]
fn a_capture_of_brightness_is_compared() {
    let folder = Folder::with_demo("brightness-compare");
    let shown = format!("{SCENE} --brightness --recommended-table --start 190");
    folder.vbmodel(&format!("draw {shown} --scale 3 --out a"));
    let ran = folder.vbmodel(&format!(
        "compare {shown} --eyes left --left a/frame1-left-brightness.png --out b"
    ));
    assert_eq!((ran.status, ran.error.as_str()), (0, ""), "{}", ran.text);
    assert_eq!(ran.text, "left eye, frame 1: pass, 86,016 pixels are equal\n");

    // the same as raw bytes, with one pixel darker and one brighter
    let picture = Rgb::read(&folder.read("a/frame1-left-brightness.png"));
    let level = |x: usize, y: usize| (128 * u32::from(picture.at(3 * x, 3 * y)[0]) + 127) / 255;
    let mut output: Vec<u8> =
        (0..WIDTH * HEIGHT).map(|i| level(i % WIDTH, i / WIDTH) as u8).collect();
    let bright = output.iter().position(|&level| level > 0).unwrap();
    (output[0], output[bright]) = (output[0] + 1, output[bright] - 1);
    folder.write("seen.bin", &output);
    let ran = folder.vbmodel(&format!("compare {shown} --eyes left --left seen.bin --out b"));
    assert_eq!((ran.status, ran.error.as_str()), (1, ""), "{}", ran.text);
    assert!(
        ran.text.starts_with("left eye, frame 1: fail, 2 of 86,016 pixels differ\n"),
        "{}",
        ran.text
    );
    assert!(ran.text.contains("written: b/compare-frame1-left-brightness.png\n"), "{}", ran.text);
    let marked = Rgb::read(&folder.read("b/compare-frame1-left-brightness.png"));
    assert_eq!(marked.at(0, 0), [0xFF, 0xE0, 0x00]);
    assert_eq!(marked.at(bright % WIDTH, bright / WIDTH), [0x00, 0xD0, 0xFF]);

    output[bright] = 129;
    folder.write("seen.bin", &output);
    let at = format!("pixel ({}, {}) has the brightness 129", bright % WIDTH, bright / WIDTH);
    let ran = folder.vbmodel(&format!("compare {shown} --eyes left --left seen.bin --out c"));
    assert!(ran.status == 2 && ran.error.contains(&at), "{}", ran.error);
    folder.write("seen.bin", &output[1..]);
    let ran = folder.vbmodel(&format!("compare {shown} --eyes left --left seen.bin --out c"));
    assert!(ran.status == 2 && ran.error.contains("86,016"), "{}", ran.error);
    for other in ["--why", "--threshold 9"] {
        let ran =
            folder.vbmodel(&format!("compare {shown} --eyes left --left seen.bin {other} --out c"));
        assert!(
            ran.status == 2 && ran.error.contains("--brightness goes with neither"),
            "{}",
            ran.error
        );
    }
}
