//! `vbmodel draw`, `compare` and `why` as a new user tries them, with pictures read back.

mod common;

use common::{pixel, Folder, Rgb, HEIGHT, WIDTH};

const SCENE: &str = "--vram out/vram.bin --drawing out/drawing.bin";

/// The raw image of a frame and an eye.
fn image(vram: &[u8], frame: usize, eye: usize) -> Vec<u8> {
    let at = 0x8000 * frame + 0x10000 * eye;
    vram[at..at + 24_576].to_vec()
}

#[test]
fn draw_writes_either_frame_and_eye() {
    let folder = Folder::with_demo("draw");
    let ran = folder.vbmodel(&format!("draw {SCENE} --frame 1 --eye left --out a"));
    let written = "frame 1 drawn, both eyes\nwritten: a/frame1-left.png\n";
    assert_eq!((ran.status, ran.text.as_str()), (0, written));
    assert_eq!(folder.vbmodel(&format!("draw {SCENE} --out a --save-vram a/vram.bin")).status, 0);
    let vram = folder.read("a/vram.bin");
    for (eye, name) in ["left", "right"].iter().enumerate() {
        let picture = Rgb::read(&folder.read(&format!("a/frame0-{name}.png")));
        assert_eq!((picture.width, picture.height), (WIDTH, HEIGHT));
        for y in 0..HEIGHT {
            for x in 0..WIDTH {
                assert_eq!(picture.at(x, y), [0x55 * pixel(&vram, 0, eye, x, y), 0, 0]);
            }
        }
    }
    let all = folder.vbmodel(&format!("draw {SCENE} --eye all --scale 2 --out b --json"));
    assert_eq!(
        all.text,
        "{\"frame\": 0, \"scale\": 2, \"as_is\": false, \"written\": [\"b/frame0-left.png\", \"b/frame0-right.png\", \
         \"b/frame0-side-by-side.png\", \"b/frame0-anaglyph.png\"]}\n"
    );
    let large = Rgb::read(&folder.read("b/frame0-right.png"));
    assert_eq!((large.width, large.height), (2 * WIDTH, 2 * HEIGHT));
}

#[test]
fn draw_and_compare_refuse_bad_input() {
    let folder = Folder::with_demo("draw-refused");
    folder.write("short.vram", &[0; 262_143]);
    let mut drawing = folder.read("out/drawing.bin");
    drawing[24] = 4;
    folder.write("wide.drawing", &drawing);
    folder.write("short.drawing", &drawing[..25]);
    folder.write("short.image", &[0; 24_575]);
    for command in [
        "draw --out pictures",
        "compare --eyes left --left short.image --out pictures",
        "why left 0 0",
    ] {
        for (arguments, message) in [
            ("--vram short.vram --drawing wide.drawing", "short.vram (262,143 bytes): refusal 3: VRAM has 262,143 bytes; it must have 262,144"),
            ("--vram out/vram.bin --drawing wide.drawing", "wide.drawing (26 bytes): refusal 5: BKCOL is 0x00000004; it must be at most 3 (2 bits)"),
            ("--vram out/vram.bin --drawing short.drawing", "short.drawing (25 bytes): the record has 25 bytes; it must have 26"),
            ("--vram none --drawing short.drawing", "none: No such file or directory; it must be VRAM of 262,144 bytes"),
        ] {
            folder.refused(&format!("{command} {arguments}"), &format!("vbmodel: {message}"));
        }
    }
    let message = "vbmodel: refusal 7: frame 2 was asked for; frames are 0 and 1";
    folder.refused(&format!("draw {SCENE} --frame 2 --out pictures"), message);
    folder.refused(
        &format!("compare {SCENE} --frame 2 --eyes left --left short.image --out pictures"),
        message,
    );
    folder.refused(
        &format!("draw {SCENE} --out out/vram.bin"),
        "vbmodel: out/vram.bin/frame0-left.png: out/vram.bin is a file, not a folder; nothing was written",
    );
    let json = folder.vbmodel(&format!("draw {SCENE} --frame 2 --json"));
    let expected =
        "{\"refusal\": 7, \"error\": \"refusal 7: frame 2 was asked for; frames are 0 and 1\"}\n";
    assert_eq!((json.status, json.text.as_str()), (2, expected));
}

#[test]
fn compare_writes_no_picture_where_nothing_differs() {
    let folder = Folder::with_demo("compare-equal");
    folder.write("left.raw", &image(&folder.read("out/vram.bin"), 1, 0));
    assert_eq!(folder.vbmodel(&format!("draw {SCENE} --frame 1 --scale 4 --out large")).status, 0);
    for (left, right) in
        [("left.raw", "out/frame1-right.png"), ("out/frame1-left.png", "large/frame1-right.png")]
    {
        let ran = folder
            .vbmodel(&format!("compare {SCENE} --frame 1 --left {left} --right {right} --out m"));
        assert_eq!((ran.status, ran.error.as_str()), (0, ""));
        assert_eq!(
            ran.text,
            "left eye, frame 1: pass, 86,016 pixels are equal\nright eye, frame 1: pass, 86,016 pixels are equal\n"
        );
        assert!(!folder.path("m").exists(), "nothing differs, so there is nothing to mark");
    }
    // rows 224 to 255 are never drawn and not compared
    let mut raw = folder.read("left.raw");
    raw[56] ^= 0xFF;
    folder.write("below.raw", &raw);
    assert_eq!(
        folder.vbmodel(&format!("compare {SCENE} --frame 1 --eyes left --left below.raw")).status,
        0
    );
}

#[test]
fn compare_json_names_capture_and_memory() {
    let folder = Folder::with_demo("compare-different");
    let vram = folder.read("out/vram.bin");
    let mut raw = image(&vram, 1, 1);
    let (before, after) = (pixel(&vram, 1, 1, 383, 223), (pixel(&vram, 1, 1, 383, 223) + 1) % 4);
    raw[64 * 383 + 55] = raw[64 * 383 + 55] & 0x3F | after << 6;
    let first = pixel(&vram, 1, 1, 0, 0);
    assert_eq!(first, 0);
    raw[0] |= 3;
    folder.write("right.raw", &raw);
    let command = format!("compare {SCENE} --frame 1 --eyes right --right right.raw --out m");
    let ran = folder.vbmodel(&command);
    assert_eq!((ran.status, ran.error.as_str()), (1, ""));
    assert_eq!(
        ran.text,
        format!(
            "right eye, frame 1: fail, 2 of 86,016 pixels differ\n  column 0, row 0: expected 0, seen 3\n  \
             column 383, row 223: expected {before}, seen {after}\n  all of them in columns 0 to 383, rows 0 to 223\n\
             written: m/compare-frame1-right.png\n"
        )
    );
    let marked = Rgb::read(&folder.read("m/compare-frame1-right.png"));
    let coloured = |p: &&[u8; 3]| p[0] != p[1] || p[1] != p[2];
    assert_eq!(marked.pixels.iter().filter(coloured).count(), 2);
    assert_eq!(marked.at(0, 0), [0xFF, 0xE0, 0x00]);
    let json = folder.vbmodel(&format!("{command} --json --first 1"));
    assert_eq!(json.status, 1);
    assert_eq!(
        json.text,
        "{\"verdict\": \"fail\", \"vram\": \"out/vram.bin\", \"drawing\": \"out/drawing.bin\", \"frame\": 1, \"eyes\": \
         [{\"eye\": \"right\", \"capture\": \"right.raw\", \"verdict\": \"fail\", \"different\": 2, \
         \"first\": [{\"column\": 0, \"row\": 0, \"expected\": 0, \"seen\": 3}], \
         \"bounds\": {\"left\": 0, \"top\": 0, \"right\": 383, \"bottom\": 223}}], \
         \"written\": [\"m/compare-frame1-right.png\"]}\n"
    );
    // the demo's two frames show different moments
    let ran = folder.vbmodel(&format!(
        "compare {SCENE} --frame 1 --eyes left --left out/frame0-left.png --first 0"
    ));
    assert_eq!(ran.status, 1);
    assert!(ran.text.starts_with("left eye, frame 1: fail, "), "{}", ran.text);
    assert!(ran.text.lines().nth(1).unwrap().starts_with("  and "), "{}", ran.text);
}

#[test]
fn compare_refuses_other_captures() {
    let folder = Folder::with_demo("compare-captures");
    folder.write("short.raw", &[0; 24_575]);
    folder.write("small.png", &Rgb::png(64, &[0; 64 * 64]));
    let mut values = vec![0; WIDTH * HEIGHT * 4];
    values[1] = 1;
    folder.write("torn.png", &Rgb::png(2 * WIDTH, &values));
    folder.write("cut.png", &Rgb::png(WIDTH, &[0; WIDTH * HEIGHT])[..90]);
    for (file, message) in [
        (
            "short.raw",
            "short.raw (24,575 bytes): a capture is a raw frame buffer of 24,576 bytes, a whole VRAM of 262,144, or a PNG",
        ),
        ("none.raw", "none.raw: No such file or directory; it must be a capture: a raw frame buffer of 24,576 bytes, a whole \
          VRAM of 262,144, or a PNG"),
    ] {
        folder.refused(&format!("compare {SCENE} --eyes left --left {file}"), &format!("vbmodel: {message}"));
    }
    for (file, part) in [
        (
            "small.png",
            "the PNG has 64 by 64 pixels; it must have 384 by 224, or 2 to 16 times that",
        ),
        ("torn.png", "in the PNG, pixel (0, 0) is not one square of 2 by 2"),
        ("cut.png", "the PNG cannot be read: "),
        (
            "out/frame1-anaglyph.png",
            "it must be opaque red or grey of 00, 55, AA or FF (values 0 to 3)",
        ),
    ] {
        let ran = folder.vbmodel(&format!("compare {SCENE} --eyes left --left {file} --out marks"));
        assert_eq!((ran.status, ran.text.as_str()), (2, ""), "{file}");
        assert!(ran.error.contains(part), "{file}: {}", ran.error);
    }
    assert!(!folder.path("marks/compare-frame0-right.png").exists());
    let ran = folder.vbmodel(&format!("compare {SCENE}"));
    assert!(ran.status == 2 && ran.error.contains("--left FILE"), "{}", ran.error);
}

#[test]
fn why_says_what_covers_a_pixel() {
    let folder = Folder::with_demo("why");
    let ran = folder.vbmodel(&format!("why left 192 120 {SCENE}"));
    assert_eq!((ran.status, ran.error.as_str()), (0, ""));
    let vram = folder.read("out/vram.bin");
    let value = pixel(&vram, 1, 0, 192, 120);
    let first = format!(
        "pixel (192, 120) of the left eye: value {value}\n\
         computed by the independent model; the proved library draws {value}, the same\n"
    );
    assert!(ran.text.starts_with(&first), "{}", ran.text);
    for part in [
        "\n  BKCOL gives 0\n",
        "\n  world 28, H-bias: source (",
        "\n  world 24, group 1, object ",
        "<- the pixel\n",
        ": parameter HOFST\n",
        "\n  21  END: no world from here on is drawn\n",
        "\n  31  its window (",
    ] {
        assert!(ran.text.contains(part), "{part}: {}", ran.text);
    }
    let ran = folder.vbmodel(&format!("why right 383 223 {SCENE} --json"));
    assert_eq!(ran.status, 0);
    assert!(ran.text.starts_with(
        "{\"computed_by\": \"independent model\", \"eye\": \"right\", \"column\": 383, "
    ));
    let message = "vbmodel: pixel (384, 0) is never drawn; columns are 0 to 383 and rows 0 to 223";
    folder.refused(&format!("why left 384 0 {SCENE}"), message);
}

/// Changing a byte that is not listed, tables aside, leaves the pixel; changing the winner's row changes it.
#[test]
fn whys_bytes_are_those_the_pixel_answers_to() {
    let folder = Folder::with_demo("why-bytes");
    let mut vram = folder.read("out/vram.bin");
    let ran = folder.vbmodel(&format!("why left 192 120 {SCENE}"));
    let listed: Vec<usize> = ran
        .text
        .lines()
        .filter_map(|line| line.trim_start().strip_prefix("0x"))
        .map(|line| usize::from_str_radix(&line[..5], 16).unwrap())
        .flat_map(|at| [at, at + 1])
        .collect();
    assert!(listed.len() >= 6, "{}", ran.text);
    for at in (0..0x3D800).chain(0x3DC00..0x3E000) {
        if !listed.contains(&at) {
            vram[at] = vram[at].wrapping_mul(167).wrapping_add(13);
        }
    }
    folder.write("out/other.bin", &vram);
    let other = folder.vbmodel("why left 192 120 --vram out/other.bin --drawing out/drawing.bin");
    assert_eq!(other.text.lines().next(), ran.text.lines().next());
}

#[test]
fn draw_lays_an_overlay_and_reports_refused_writes() {
    let folder = Folder::with_demo("draw-overlay");
    let lines = "# map 12, a character by its mirror, and a world record\nhalf 0x38000 0x0600\n\
                 word 0x0007_E000 0x12345678\nbyte 0x3D800 1\n";
    folder.write("paint.txt", lines.as_bytes());
    let ran = folder.vbmodel(&format!("draw {SCENE} --overlay paint.txt --save-vram after.bin"));
    let said = "overlay: 2 written, 1 refused\n  line 4: refusal 13: the probe was to write at 0x0003D800; it may write \
                characters 1,536 to 2,047 and background maps 12 and 13, at 0x0001E000 to 0x0001FFFF, 0x00038000 to \
                0x0003BFFF and their mirrors\nframe 0 drawn, both eyes\n";
    assert_eq!(ran.status, 2, "a write of the overlay that is refused is an error");
    assert!(ran.text.starts_with(said), "{}", ran.text);
    let (before, after) = (folder.read("out/vram.bin"), folder.read("after.bin"));
    assert_eq!(after[0x3_8000..0x3_8002], [0x00, 0x06]);
    assert_eq!(after[0x1_E000..0x1_E004], [0x78, 0x56, 0x34, 0x12]);
    assert_eq!(after[0x3_D800], before[0x3_D800]);
    let json = folder.vbmodel(&format!("draw {SCENE} --overlay paint.txt --json"));
    let said = "\"overlay\": {\"written\": 2, \"refused\": [{\"line\": 4, \"refusal\": 13, \"error\": \"refusal 13: ";
    assert!(json.text.contains(said), "{}", json.text);
}

#[test]
fn draw_refuses_a_bad_overlay() {
    let folder = Folder::with_demo("draw-overlay-refused");
    folder.write("bad.txt", b"byte 0\n");
    folder.refused(
        &format!("draw {SCENE} --overlay bad.txt --out pictures"),
        "vbmodel: bad.txt (7 bytes): line 1: a write is byte, half or word, an address and a value",
    );
    folder.write("short.vram", &[0; 262_143]);
    folder.write("paint.txt", b"byte 0x38000 1\n");
    folder.refused(
        "draw --vram short.vram --drawing out/drawing.bin --overlay paint.txt --out pictures",
        "vbmodel: short.vram (262,143 bytes): refusal 3: VRAM has 262,143 bytes; it must have 262,144",
    );
}
