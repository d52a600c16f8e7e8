//! `vbmodel judge` as a bench uses it: folders and manifests in, lines, JSON, JUnit XML and a page out.

mod common;

use std::fs;

use common::Folder;
use serde_json::Value;

/// The demo's files, and a folder `lot` with a part that passes and one that fails.
fn with_lot(name: &str) -> Folder {
    let folder = Folder::with_demo(name);
    fs::create_dir(folder.path("lot")).unwrap();
    for (from, to) in [
        ("vram.bin", "all.vram"),
        ("drawing.bin", "all.drawing"),
        ("frame1-left.png", "good.left.png"),
        ("frame1-right.png", "good.right.png"),
        ("frame0-left.png", "worn & <old>.left.png"),
        ("frame1-right.png", "worn & <old>.right.png"),
    ] {
        fs::copy(folder.path(&format!("out/{from}")), folder.path(&format!("lot/{to}"))).unwrap();
    }
    folder
}

fn json_lines(text: &str) -> Vec<Value> {
    text.lines().map(|line| serde_json::from_str(line).unwrap()).collect()
}

#[test]
fn a_folder_is_judged_by_its_names() {
    let folder = with_lot("judge-folder");
    let ran = folder.vbmodel("judge lot");
    assert_eq!((ran.status, ran.error.as_str()), (1, ""));
    let lines: Vec<&str> = ran.text.lines().collect();
    assert_eq!(lines[0], "pass     good: frame 0, left eye equal; right eye equal");
    let start = "fail     worn & <old>: frame 0, left eye: 11,715 of 86,016 pixels, columns ";
    assert!(lines[1].starts_with(start) && lines[1].ends_with("; right eye equal"), "{}", lines[1]);
    assert_eq!(lines[2], "2 parts: 1 pass, 1 fail");
    assert_eq!(heads(&lines[3..]), ["lot    lot, ", "model  vbmodel ", "read   6 files, "]);
    ["left", "right"].iter().for_each(|eye| {
        fs::remove_file(folder.path(&format!("lot/worn & <old>.{eye}.png"))).unwrap()
    });
    assert_eq!(folder.vbmodel("judge lot").status, 0);
    // a part's own scene, frame 1, a whole VRAM for both eyes, and a file that is none of them
    for (from, to) in [
        ("vram.bin", "own.vram"),
        ("drawing.bin", "own.drawing"),
        ("frame1-left.png", "own.frame1.left.png"),
        ("frame1-right.png", "own.frame1.right.png"),
        ("vram.bin", "all.vram"),
        ("vram.bin", "dumped.frame1.dump"),
        ("vram.bin", "notes.txt"),
        ("vram.bin", ".left.png"),
    ] {
        fs::copy(folder.path(&format!("out/{from}")), folder.path(&format!("lot/{to}"))).unwrap();
    }
    let ran = folder.vbmodel("judge lot --allow-extra");
    assert_eq!(ran.status, 0, "{}", ran.text);
    for line in [
        "pass     dumped.frame1: frame 1, left eye equal; right eye equal\n",
        "pass     own.frame1: frame 1, left eye equal; right eye equal\n",
        "unknown files in the lot (not judged): .left.png, notes.txt\n3 parts: 3 pass, 0 fail\n",
    ] {
        assert!(ran.text.contains(line), "{line}: {}", ran.text);
    }
    let ran = folder.vbmodel("judge lot");
    let line = "unknown files in the lot (remove or rename, or give --allow-extra): .left.png, notes.txt\n\
                3 parts: 3 pass, 0 fail, 2 unknown files\n";
    assert!(ran.status == 2 && ran.text.contains(line), "{}", ran.text);
}

/// How the lines begin that say what was judged, by which model, and from which files.
fn heads<'a>(lines: &[&'a str]) -> Vec<&'a str> {
    let known = ["lot    lot, ", "model  vbmodel ", "read   6 files, "];
    let head = |line: &&'a str| {
        known.iter().find(|head| line.starts_with(**head)).map(|head| &line[..head.len()])
    };
    lines.iter().map(|line| head(line).unwrap_or(line)).collect()
}

/// The demo's machine as a saved state of form 1: a count, kind, offset and length of each body, the bodies.
fn saved_state(folder: &Folder) -> Vec<u8> {
    let mut bodies = ["processor", "drawing", "wram", "vram"]
        .map(|name| folder.read(&format!("out/{name}.bin")));
    // lines and timer are left out
    bodies[0].truncate(172);
    let mut file = 4u16.to_le_bytes().to_vec();
    let mut offset = 2 + 10 * 4;
    for (kind, body) in bodies.iter().enumerate() {
        file.extend((kind as u16 + 1).to_le_bytes());
        file.extend((offset as u32).to_le_bytes());
        file.extend((body.len() as u32).to_le_bytes());
        offset += body.len();
    }
    [file, bodies.concat()].concat()
}

#[test]
fn a_saved_state_is_a_scene() {
    let folder = with_lot("judge-state");
    folder.write("lot/saved.state", &saved_state(&folder));
    fs::copy(folder.path("out/frame1-left.png"), folder.path("lot/saved.left.png")).unwrap();
    let ran = folder.vbmodel("judge lot --eyes left");
    assert!(ran.text.contains("pass     saved: frame 0, left eye equal\n"), "{}", ran.text);
    let by_state = folder.vbmodel("why left 192 120 --state lot/saved.state");
    let by_files = folder.vbmodel("why left 192 120 --vram out/vram.bin --drawing out/drawing.bin");
    assert_eq!((by_state.status, by_state.text), (0, by_files.text));
    let drawn = folder.vbmodel("draw --state lot/saved.state --frame 1 --out drawn");
    assert_eq!(drawn.status, 0, "{}", drawn.error);
    let both = folder.vbmodel("why left 0 0 --state lot/saved.state --vram out/vram.bin");
    assert!(both.status == 2 && both.error.contains("cannot be used with"), "{}", both.error);
}

const TOML: &str = "
drawing = '../out/drawing.bin'
frame = 1
eyes = 'left'

[[part]]
name = 'good'
vram = '../out/vram.bin'
left = '../out/frame1-left.png'

[[part]]
name = 'worn'
vram = '../out/vram.bin'
frame = 0x0
eyes = 'both'
capture = '../out/vram.bin'

[[part]]
name = 'mistyped'
vram = '../out/vram.bin'
lift = '../out/frame1-left.png'
";

const CSV: &str = "name, vram, drawing, frame, left, right, eyes
good, out/vram.bin, out/drawing.bin, 1, out/frame1-left.png, , left
\"worn, old\", out/vram.bin, out/drawing.bin, 1, , out/frame0-right.png, right
short, out/vram.bin
none, out/vram.bin, out/drawing.bin, 1, out/none.png, , left
";

#[test]
fn manifests_in_toml_and_csv_are_judged() {
    let folder = Folder::with_demo("judge-manifests");
    fs::create_dir(folder.path("lots")).unwrap();
    folder.write("lots/a.toml", TOML.as_bytes());
    let ran = folder.vbmodel("judge lots/a.toml");
    assert_eq!(ran.status, 2, "{}", ran.text);
    let starts = |text: &str, starts: &[&str]| {
        // and three lines of the header
        assert_eq!(text.lines().count(), starts.len() + 3, "{text}");
        for (line, start) in text.lines().zip(starts) {
            assert!(line.starts_with(start), "{line}\nnot\n{start}");
        }
    };
    starts(
        &ran.text,
        &[
            "pass     good: frame 1, left eye equal",
            "fail     worn: frame 0, left eye",
            "invalid  mistyped: lots/a.toml: unknown field `lift`, expected one of `name`, `state`",
            "3 parts: 1 pass, 1 fail, 1 invalid",
        ],
    );
    folder.write("b.csv", CSV.as_bytes());
    let ran = folder.vbmodel("judge b.csv");
    assert_eq!(ran.status, 2, "{}", ran.text);
    starts(
        &ran.text,
        &[
            "pass     good: frame 1, left eye equal",
            "fail     worn, old: frame 1, right eye: ",
            "invalid  line 4: b.csv: the line has ",
            "invalid  none: out/none.png: No such file or directory; it must be a capture",
            "4 parts: 1 pass, 1 fail, 2 invalid",
        ],
    );
}

#[test]
fn a_wrong_value_of_a_manifest_is_named_with_what_is_allowed() {
    let folder = Folder::with_demo("judge-values");
    let files = "out/vram.bin,out/drawing.bin,out/frame1-left.png,out/frame1-right.png";
    for (column, value, rule) in [
        ("frame", "one", "frame is `one`; it must be 0 or 1"),
        ("frame", "1_0", "frame is `1_0`; it must be 0 or 1"),
        ("threshold", "300", "threshold is `300`; it must be 1 to 42"),
        ("eyes", "Left", "eyes is `Left`; it must be both, left, right"),
    ] {
        let text = format!("name,vram,drawing,left,right,{column}\na,{files},{value}\n");
        folder.write("lot.csv", text.as_bytes());
        let ran = folder.vbmodel("judge lot.csv");
        let line = format!("invalid  line 2: lot.csv: {rule}\n");
        assert!(ran.status == 2 && ran.text.starts_with(&line), "{line}\nnot\n{}", ran.text);
    }
    for (key, rule) in [
        ("frame = -1", "frame is -1; it must be 0 or 1"),
        ("frame = '1'", "frame is \"1\"; it must be 0 or 1"),
        ("threshold = 300", "threshold is 300; it must be 1 to 42"),
        ("eyes = 'Left'", "eyes is \"Left\"; it must be both, left, right"),
        ("left = 7", "left is 7; it must be a text in quotes"),
    ] {
        folder.write("lot.toml", format!("[[part]]\nname = 'a'\n{key}\n").as_bytes());
        let ran = folder.vbmodel("judge lot.toml");
        let line = format!("invalid  a: lot.toml: {rule}\n");
        assert!(ran.status == 2 && ran.text.starts_with(&line), "{line}\nnot\n{}", ran.text);
    }
    folder.write("lot.csv", b"name,lift\na,b\n");
    let message = "vbmodel: lot.csv: line 1: unknown column `lift`; the columns are name, state, vram, drawing, frame, left, \
                   right, capture, threshold, eyes";
    folder.refused("judge lot.csv", message);
}

#[test]
fn a_manifest_may_come_from_a_spreadsheet() {
    let folder = Folder::with_demo("judge-spreadsheet");
    let text = "\u{FEFF}name;vram;drawing;frame;left\r\ngood;out/vram.bin;out/drawing.bin;1;out/frame1-left.png\r\n";
    folder.write("lot.csv", text.as_bytes());
    let ran = folder.vbmodel("judge lot.csv --eyes left");
    let expected =
        "pass     good: frame 1, left eye equal\n1 part: 1 pass, 0 fail\nlot    lot.csv, ";
    assert!(ran.status == 0 && ran.text.starts_with(expected), "{}{}", ran.text, ran.error);
}

#[test]
fn json_has_a_line_for_each_part_and_one_for_all() {
    let folder = with_lot("judge-json");
    let ran = folder.vbmodel("judge lot --json --first 2");
    assert_eq!(ran.status, 1);
    let lines = json_lines(&ran.text);
    assert_eq!(lines.len(), 4);
    assert_eq!(lines[0]["header"]["lot"], "lot");
    let lines = &lines[1..];
    assert_eq!((&lines[0]["name"], &lines[0]["verdict"]), (&"good".into(), &"pass".into()));
    let left = &lines[1]["eyes"][0];
    assert_eq!(left["capture"], "lot/worn & <old>.left.png");
    assert_eq!(left["different"], 11_715);
    assert_eq!(left["first"].as_array().unwrap().len(), 2);
    let shares = left["shares"].as_array().unwrap();
    let counted: u64 = shares.iter().map(|share| share["pixels"].as_u64().unwrap()).sum();
    assert_eq!(counted, 11_715, "every differing pixel is accounted for once");
    assert_eq!(lines[2]["summary"]["fail"], 1);
}

#[test]
fn junit_is_written_for_a_test_server() {
    let folder = with_lot("judge-junit");
    folder.write("lot/bad.left.png", b"no PNG");
    folder.write("lot/notes.txt", b"x");
    fs::create_dir(folder.path("reports")).unwrap();
    let ran = folder.vbmodel("judge lot --junit reports/lot.xml");
    assert_eq!(ran.status, 2);
    assert!(ran.text.ends_with("written: reports/lot.xml\n"), "{}", ran.text);
    let xml = String::from_utf8(folder.read("reports/lot.xml")).unwrap();
    for part in [
        "<testsuite name=\"vbmodel judge\" tests=\"4\" failures=\"1\" errors=\"2\" skipped=\"0\" time=\"",
        "<testcase classname=\"vbmodel.judge\" name=\"good\"/>",
        "name=\"worn &amp; &lt;old&gt;\">\n    <failure message=\"captures: frame 0, left eye: 11,715 of 86,016 pixels",
        "name=\"bad\">\n    <error message=\"captures: lot/bad.left.png (6 bytes): a capture is a raw frame buffer",
        "<property name=\"file lot/all.vram\" value=\"SHA-256 ",
        "name=\"unknown files\">\n    <error message=\"notes.txt\"/>",
    ] {
        assert!(xml.contains(part), "{part}: {xml}");
    }
    let parsed = std::process::Command::new("python3")
        .args(["-c", "import sys, xml.dom.minidom as m; print(len(m.parse(sys.argv[1]).getElementsByTagName('testcase')))"])
        .arg(folder.path("reports/lot.xml"))
        .output();
    if let Ok(parsed) = parsed {
        assert_eq!(String::from_utf8_lossy(&parsed.stdout), "4\n");
    }
}

#[test]
fn the_page_needs_nothing_else_and_explains_a_failed_part() {
    let folder = with_lot("judge-html");
    assert_eq!(folder.vbmodel("judge lot --html report.html").status, 1);
    let page = String::from_utf8(folder.read("report.html")).unwrap();
    for part in [
        "2 parts: 1 pass, 1 fail",
        "<tr id=\"row-0\" class=\"pass\"><td>good<td>",
        "<h3>worn &amp; &lt;old&gt;: fail, bin 2</h3>",
        "<p>frame 0; scene lot/all.vram, lot/all.drawing</p>",
        "11,715 of 86,016 pixels differ, columns ",
        "<th>What the model shows there",
        "<pre>pixel (297, 9) of the left eye: value 0\n",
        "<tr><th scope=\"row\">Model</th><td>vbmodel ",
    ] {
        assert!(page.contains(part), "{part}");
    }
    // of the eye that differs: the model's picture, what the capture changes, and where; shown five times
    let count = |text: &str| page.matches(text).count();
    assert_eq!((count("href=\"data:image/png;base64,"), count("role=\"img\"")), (3, 5));
    for outside in ["http://", "https://", "src=\"/", "<link", "url("] {
        assert!(!page.contains(outside), "{outside}");
    }
}

#[test]
fn a_lot_without_a_plan_has_the_header_and_every_form_of_report() {
    let folder = with_lot("judge-forms");
    let forms = "--report r.json --csv r.csv --stdf r.stdf --html r.html --junit r.xml";
    let ran = folder.vbmodel(&format!("judge lot {forms}"));
    assert_eq!((ran.status, ran.error.as_str()), (1, ""), "{}", ran.text);
    let report = json_lines(&String::from_utf8(folder.read("r.json")).unwrap());
    let header = &report[0]["header"];
    assert!(header["plan"].is_null() && header["command"].as_str().unwrap().contains(forms));
    assert_eq!(header["model"]["vb_version"], vbsys::VERSION);
    let of = |one: &Value| one["files"].as_array().unwrap().clone();
    let files: Vec<Value> =
        of(header).into_iter().chain(report[1..3].iter().flat_map(of)).collect();
    assert_eq!(files.len(), 6, "two of the scene, four captures");
    let line = |file: &Value| {
        format!("{}  {}\n", file["sha256"].as_str().unwrap(), file["path"].as_str().unwrap())
    };
    let list: String = files.iter().map(line).collect();
    folder.write("list", list.as_bytes());
    let checked = folder.shell("sha256sum --check --quiet list");
    assert_eq!((checked.status, checked.text.as_str()), (0, ""), "{}", checked.error);
    let csv = String::from_utf8(folder.read("r.csv")).unwrap();
    assert!(csv.contains("\ngood,1,yes,pass,1,,,,every test passes,pass,0,"), "{csv}");
    assert!(
        csv.contains("\nworn & <old>,1,yes,fail,2,,,,\"captures: frame 0, left eye: 11,715 "),
        "{csv}"
    );
    assert!(folder.read("r.stdf").starts_with(&[2, 0, 0, 10, 2, 4]));
    // and the report can be tried again
    let same = folder.vbmodel("verify r.json");
    let text =
        "files:    6 read again, all as they were\nverdicts: the same for 2 tests of parts\n";
    assert_eq!((same.status, same.text.as_str()), (0, text), "{}", same.error);
    fs::copy(folder.path("lot/worn & <old>.left.png"), folder.path("lot/good.left.png")).unwrap();
    let other = folder.vbmodel("verify r.json");
    assert!(other.text.contains("  good: was pass, bin 1; is fail, bin 2\n"), "{}", other.text);
    let page = String::from_utf8(folder.read("r.html")).unwrap();
    assert!(page.contains("SHA-256, length and name of 6 files"));
}

#[test]
fn an_invalid_part_does_not_stop_the_others() {
    let folder = with_lot("judge-bad");
    fs::create_dir(folder.path("lot/folder.left.png")).unwrap();
    folder.write("lot/empty.left.raw", b"");
    folder.write("lot/short.vram", &[0; 262_143]);
    folder.write("lot/short.right.raw", &[0; 24_576]);
    folder.write("lot/wide.drawing", &[0xFF; 26]);
    folder.write("lot/wide.right.raw", &[0; 24_576]);
    folder.write("lot/lonely.state", b"x");
    let ran = folder.vbmodel("judge lot");
    assert_eq!(ran.status, 2);
    for line in [
        "invalid  empty: lot/empty.left.raw (0 bytes): a capture is a raw frame buffer of 24,576 bytes, a whole VRAM of",
        "invalid  folder: lot/folder.left.png: is a folder; it must be a capture: ",
        "pass     good: ",
        "invalid  lonely: lot/lonely.state (1 bytes): refusal 9: no saved state has this length; it must be a saved state, form 1 or 2",
        "invalid  short: lot/short.vram (262,143 bytes): refusal 3: VRAM has 262,143 bytes; it must have 262,144",
        "invalid  wide: lot/wide.drawing (26 bytes): refusal 5: SPT0 is 0x0000FFFF; it must be at most 0x3FF (10 bits)",
        "fail     worn & <old>: ",
        "7 parts: 1 pass, 1 fail, 5 invalid",
    ] {
        assert!(ran.text.lines().any(|l| l.starts_with(line)), "{line}\nnot in\n{}", ran.text);
    }
}

#[test]
fn bad_input_what_is_not_a_lot_is_reported() {
    let folder = with_lot("judge-none");
    folder.write("lot.txt", b"x");
    folder.write("bytes.toml", b"\xFF");
    folder.write("wrong.toml", b"part = 3");
    folder.write("empty.toml", b"");
    folder.write("heads.csv", b"a, b\n1, 2\n");
    fs::create_dir(folder.path("nothing")).unwrap();
    for (lot, message) in [
        ("none", "none: No such file or directory; it must be a folder, or a manifest whose name ends in .toml or .csv"),
        ("lot.txt", "lot.txt: a lot is a folder, or a manifest whose name ends in .toml or .csv"),
        ("bytes.toml", "bytes.toml (1 bytes): not a text file; it must be a manifest, TOML or CSV"),
        ("wrong.toml", "wrong.toml (8 bytes): not a manifest: invalid type: integer `3`, expected a sequence for key `part` at line 1 column 8"),
        ("empty.toml", "empty.toml: has no part"),
        ("nothing", "nothing: has no part"),
        ("heads.csv", "heads.csv (10 bytes): its first line must name the columns: name, and of state, vram, drawing, frame, left, right, capture, threshold and eyes those that are used"),
    ] {
        folder.refused(&format!("judge {lot} --html report.html"), &format!("vbmodel: {message}"));
    }
    folder.refused(
        "judge lot --html lot.txt/x.html",
        "vbmodel: lot.txt/x.html: lot.txt is a file, not a folder; nothing was written",
    );
    let ran = folder.vbmodel("judge lot --html lot/good.left.png");
    assert_eq!(ran.status, 2);
    assert!(ran.error.contains("is read by this command"), "{}", ran.error);
    assert!(ran.text.contains("2 parts: 1 pass, 1 fail\n"), "{}", ran.text);
}

/// A folder `many` of 60 parts that take some time: their captures are enlarged 16 times.
fn slow_lot(folder: &Folder) {
    let scene = "--vram out/vram.bin --drawing out/drawing.bin";
    let ran = folder.vbmodel(&format!("draw {scene} --scale 16 --eye left --out large"));
    assert_eq!(ran.status, 0, "{}", ran.error);
    fs::create_dir(folder.path("many")).unwrap();
    for (from, to) in [("vram.bin", "all.vram"), ("drawing.bin", "all.drawing")] {
        fs::copy(folder.path(&format!("out/{from}")), folder.path(&format!("many/{to}"))).unwrap();
    }
    for i in 0..60 {
        let capture = folder.path(&format!("many/{i:04}.left.png"));
        fs::hard_link(folder.path("large/frame0-left.png"), capture).unwrap();
    }
}

#[test]
fn a_lot_is_stopped_by_ctrl_c_with_what_was_judged() {
    let folder = Folder::with_demo("judge-interrupt");
    slow_lot(&folder);
    let child = std::process::Command::new(env!("CARGO_BIN_EXE_vbmodel"))
        .args(["judge", "many", "--eyes", "left"])
        .env("RAYON_NUM_THREADS", "1")
        .current_dir(folder.path("."))
        .stdout(std::process::Stdio::piped())
        .spawn()
        .unwrap();
    common::interrupt(child.id());
    let output = child.wait_with_output().unwrap();
    assert_eq!(output.status.code(), Some(130));
    let text = String::from_utf8(output.stdout).unwrap();
    assert!(text.lines().any(|line| line.ends_with(" not judged")), "{text}");
}

#[test]
fn a_lot_on_a_terminal_shows_progress() {
    let folder = Folder::with_demo("judge-progress");
    slow_lot(&folder);
    let command = "RAYON_NUM_THREADS=1 \"$VB\" judge many --eyes left";
    let Some(text) = folder.terminal(command) else { return };
    assert!(text.contains(" of 60 parts\r"), "{text:?}");
    assert!(text.contains("60 parts: 60 pass, 0 fail"), "{text}");
}

#[test]
fn a_lot_of_a_hundred_states() {
    let folder = Folder::with_demo("judge-hundred");
    lot_of(&folder, 100);
    let ran = folder.vbmodel("judge many --eyes left --html many.html");
    assert_eq!(ran.status, 1, "{}", ran.text);
    assert!(ran.text.contains("100 parts: 90 pass, 10 fail\n"), "{}", ran.text);
}

/// The aim is 5 s on two idle cores. What is timed runs on demand, since a gate's machine may be busy:
/// `cargo test --release --offline -- --ignored --nocapture --test-threads 1 speed_` prints the times.
#[test]
#[ignore = "timed; 260 MB of files"]
fn speed_a_lot_of_a_thousand_states() {
    let folder = Folder::with_demo("judge-speed");
    lot_of(&folder, 1_000);
    let begun = std::time::Instant::now();
    let ran = folder.vbmodel("judge many --eyes left");
    let took = begun.elapsed();
    assert!(ran.text.contains("1,000 parts: 900 pass, 100 fail\n"), "{}", ran.text);
    println!("1,000 captures of one eye from 1,000 states: {took:?}");
    assert!(took.as_secs_f64() < 5.0, "{took:?}");
}

/// States of the demo's memory, each with a capture; every tenth is of the other frame.
fn lot_of(folder: &Folder, count: usize) {
    fs::create_dir(folder.path("many")).unwrap();
    for i in 0..count {
        let name = folder.path(&format!("many/{i:04}"));
        let copy = |from: &str, end: &str| {
            let to = format!("{}{end}", name.display());
            fs::copy(folder.path(&format!("out/{from}")), to).unwrap();
        };
        copy("vram.bin", ".vram");
        copy("drawing.bin", ".drawing");
        copy(if i % 10 == 9 { "frame0-left.png" } else { "frame1-left.png" }, ".left.png");
    }
}
