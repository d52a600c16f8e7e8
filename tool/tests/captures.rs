//! Captures as benches have them: whole VRAM dumps, analogue PNGs, and frame buffers shown as they are.

mod common;

use common::{pixel, Folder, Rgb, HEIGHT, WIDTH};

const SCENE: &str = "--vram out/vram.bin --drawing out/drawing.bin";

#[test]
fn a_whole_vram_dump_is_taken_for_both_eyes() {
    let folder = Folder::with_demo("captures-dump");
    let equal =
        "left eye, frame 1: pass, 86,016 pixels are equal\nright eye, frame 1: pass, 86,016 pixels are equal\n";
    let ran = folder.vbmodel(&format!("compare {SCENE} --frame 1 --capture out/vram.bin"));
    assert_eq!((ran.status, ran.text.as_str()), (0, equal));
    let ran = folder
        .vbmodel(&format!("compare {SCENE} --frame 1 --left out/vram.bin --right out/vram.bin"));
    assert_eq!((ran.status, ran.text.as_str()), (0, equal));
    let mut vram = folder.read("out/vram.bin");
    vram[0x18000] ^= 3;
    folder.write("die.dump", &vram);
    let ran = folder.vbmodel(&format!("compare {SCENE} --frame 1 --capture die.dump"));
    assert_eq!(ran.status, 1);
    assert!(
        ran.text.contains("right eye, frame 1: fail, 1 of 86,016 pixels differ\n"),
        "{}",
        ran.text
    );
    folder.write("raw", &vram[..24_576]);
    folder.refused(
        &format!("compare {SCENE} --capture raw"),
        "vbmodel: raw (24,576 bytes): a capture of both eyes is a whole VRAM of 262,144 bytes",
    );
}

/// The demo's left picture with each sample off by up to `by`.
fn analogue(folder: &Folder, by: usize, scale: usize) -> Vec<u8> {
    let clean = Rgb::read(&folder.read("out/frame1-left.png"));
    let mut samples = Vec::new();
    for y in 0..HEIGHT * scale {
        for x in 0..WIDTH * scale {
            let noise = ((x * 7 + y * 13) % (2 * by + 1)) as i32 - by as i32;
            let red = i32::from(clean.at(x / scale, y / scale)[0]) + noise;
            samples.extend([red.clamp(0, 255) as u8, 2, 1]);
        }
    }
    let mut bytes = Vec::new();
    let mut encoder =
        png::Encoder::new(&mut bytes, (WIDTH * scale) as u32, (HEIGHT * scale) as u32);
    encoder.set_color(png::ColorType::Rgb);
    encoder.set_depth(png::BitDepth::Eight);
    let mut writer = encoder.write_header().unwrap();
    writer.write_image_data(&samples).unwrap();
    writer.finish().unwrap();
    bytes
}

#[test]
fn a_threshold_takes_analogue_captures_and_prints_its_levels() {
    let folder = Folder::with_demo("captures-threshold");
    folder.write("a.png", &analogue(&folder, 12, 1));
    folder.write("b.png", &analogue(&folder, 12, 2));
    let compare = format!("compare {SCENE} --frame 1 --eyes left --left");
    assert_eq!(folder.vbmodel(&format!("{compare} a.png")).status, 2);
    let ran = folder.vbmodel(&format!("{compare} a.png --threshold 12"));
    assert_eq!(
        (ran.status, ran.text.as_str()),
        (
            0,
            "left eye, frame 1: pass, 86,016 pixels are equal\n  levels taken: 0 (00): 00 to 0C, 1 (55): 49 to 61, \
             2 (AA): 9E to B6, 3 (FF): F3 to FF\n"
        )
    );
    assert_eq!(folder.vbmodel(&format!("{compare} b.png --threshold 12")).status, 0);
    let ran = folder.vbmodel(&format!("{compare} a.png --threshold 5 --json"));
    assert_eq!(ran.status, 2);
    assert!(ran.error.contains("(values 0 to 3), by at most 5 (--threshold)"), "{}", ran.error);
    for wrong in ["0", "43", "many"] {
        assert_eq!(folder.vbmodel(&format!("{compare} a.png --threshold {wrong}")).status, 2);
    }
}

#[test]
fn a_frame_buffer_is_shown_without_drawing() {
    let folder = Folder::with_demo("captures-as-is");
    let mut vram = folder.read("out/vram.bin");
    (0..24_576).for_each(|at| vram[0x8000 + at] = (at * 31 % 251) as u8);
    folder.write("v", &vram);
    let ran = folder.vbmodel("draw --vram v --as-is --frame 1 --out shown --save-vram after");
    let text = "frame 1 as it is in VRAM\nwritten: shown/frame1-left.png\nwritten: shown/frame1-right.png\nwritten: after\n";
    assert_eq!((ran.status, ran.text.as_str()), (0, text), "{}", ran.error);
    assert!(folder.read("after") == vram);
    let shown = Rgb::read(&folder.read("shown/frame1-left.png"));
    for (x, y) in (0..HEIGHT).flat_map(|y| (0..WIDTH).map(move |x| (x, y))) {
        assert_eq!(shown.at(x, y), [0x55 * pixel(&vram, 1, 0, x, y), 0, 0]);
    }
    folder.refused(
        "draw --vram v --as-is --frame 2",
        "vbmodel: refusal 7: frame 2 was asked for; frames are 0 and 1",
    );
    folder.refused(
        "draw --vram out/drawing.bin --as-is",
        "vbmodel: out/drawing.bin (26 bytes): refusal 3: VRAM has 26 bytes; it must have 262,144",
    );
    let both = folder.vbmodel("draw --vram v --drawing out/drawing.bin --as-is");
    assert!(both.status == 2 && both.error.contains("cannot be used with"), "{}", both.error);
}

#[test]
fn compare_needs_both_eyes_unless_one_is_asked_for() {
    let folder = Folder::with_demo("captures-eyes");
    let compare = format!("compare {SCENE} --frame 1");
    folder.refused(
        &format!("{compare} --left out/frame1-left.png"),
        "vbmodel: no capture of the right eye; both eyes are asked for (--eyes left asks for one)",
    );
    let json = folder.vbmodel(&format!("{compare} --left out/frame1-left.png --json"));
    assert!(
        json.text.starts_with("{\"verdict\": \"invalid\", \"error\": \"no capture of"),
        "{}",
        json.text
    );
    let one = folder.vbmodel(&format!("{compare} --eyes left --left out/frame1-left.png"));
    assert_eq!(
        (one.status, one.text.as_str()),
        (0, "left eye, frame 1: pass, 86,016 pixels are equal\n")
    );
    folder.refused(
        &format!("{compare} --eyes right --left out/frame1-left.png"),
        "vbmodel: no capture of the right eye, which was asked for",
    );
    // what is given is judged, asked for or not
    let both =
        format!("{compare} --eyes left --left out/frame1-left.png --right out/frame0-right.png");
    assert_eq!(folder.vbmodel(&both).status, 1);
}

#[test]
fn a_picture_of_differences_that_cannot_be_written_is_an_error() {
    let folder = Folder::with_demo("captures-marked");
    std::fs::create_dir_all(folder.path("m/compare-frame1-left.png")).unwrap();
    folder.refused(
        &format!("compare {SCENE} --frame 1 --eyes left --left out/frame0-left.png --out m"),
        "vbmodel: m/compare-frame1-left.png: is a folder; nothing was written",
    );
}
