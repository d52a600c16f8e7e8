//! `vbmodel judge --plan`: a wafer judged from its test program in one command.

mod common;

use std::fs;

use common::Folder;
use serde_json::Value;

/// A folder with the demo's lot, `lot/plan.toml` and `lot/parts`.
fn with_lot(name: &str) -> Folder {
    let folder = Folder::new(name);
    let ran = folder.vbmodel("demo --lot lot");
    assert_eq!((ran.status, ran.error.as_str()), (0, ""));
    folder
}

/// A folder with a plan of one test of the demo's program, one frame and its trace of 100 records, and one good part.
fn with_part(name: &str) -> Folder {
    let folder = with_lot(name);
    let plan = "name = 'one'\n[[test]]\nname = 'a'\nrom = 'lot/demo.rom'\ntrace = 100\nbin = 7\n";
    folder.write("plan.toml", plan.as_bytes());
    assert_eq!(folder.vbmodel("expect --plan plan.toml --out parts/die").status, 0);
    for end in ["vram", "drawing"] {
        fs::remove_file(folder.path(&format!("parts/die/a.frame0.{end}"))).unwrap();
    }
    assert_eq!(folder.vbmodel("judge --plan plan.toml parts").status, 0);
    folder
}

const JUDGE: &str = "judge --plan plan.toml parts";

/// The lines of a judged lot that are about parts, and its last line; the status must be this.
fn judged(folder: &Folder, arguments: &str, status: i32) -> Vec<String> {
    let ran = folder.vbmodel(arguments);
    assert_eq!(ran.status, status, "{}{}", ran.text, ran.error);
    ran.text.lines().take_while(|line| !line.starts_with("plan   ")).map(str::to_string).collect()
}

fn json_lines(text: &str) -> Vec<Value> {
    text.lines().map(|line| serde_json::from_str(line).unwrap()).collect()
}

#[test]
fn a_wafer_of_24_dies_is_judged_in_one_command() {
    let folder = with_lot("plan-wafer");
    let lines = judged(&folder, "judge --plan lot/plan.toml lot/parts", 2);
    for (line, start) in lines.iter().zip([
        "fail     die-04: picture: frame 0, left eye: 117 of 86,016 pixels differ, column 201, rows 64 to 223, most by",
        "fail     die-09: picture: frame 0, left eye: 16,710 of 86,016 pixels differ, columns 0 to 383",
        "fail     die-14: steps: trace: record 12,345 differs in PSW after, expected 0x00000008, seen 0x00000009, at \
         0x07000020 BNE 0x07000018",
        "fail     die-22 (tested again): picture: frame 0, left eye: 12 of 86,016 pixels differ, columns 40 to 43",
        "invalid  die-17: picture: no capture of frame 1, right eye",
        "invalid  die-20: picture: no capture of frame 1, left eye; no capture of frame 1, right eye; steps: \
         lot/parts/die-20/steps.trace: agrees for 7,000 records; 20,000 were asked for",
        "bin 0: 2, bin 1: 19, bin 3: 2, bin 4: 1",
        "24 parts: 19 pass, 3 fail, 2 invalid; yield 79.2 %",
    ]) {
        assert!(line.starts_with(start), "{line}\nnot\n{start}");
    }
    assert_eq!(lines.len(), 8);
}

#[test]
fn what_the_model_expects_passes_as_a_part_and_frames_are_those_of_the_demo() {
    let folder = with_part("plan-expect");
    assert_eq!(folder.vbmodel("demo --scale 1").status, 0);
    let expected =
        ["left", "right"].map(|eye| folder.read(&format!("parts/die/a.frame0.{eye}.png")));
    assert_eq!(
        expected,
        ["left", "right"].map(|eye| folder.read(&format!("out/frame0-{eye}.png")))
    );
    let trace = folder.vbmodel("trace --rom lot/demo.rom --budget 100 -o t");
    assert_eq!(trace.status, 0, "{}", trace.error);
    assert!(folder.read("t") == folder.read("parts/die/a.trace"));
    // both frames, with the scenes they were drawn from
    let ran = folder.vbmodel("expect --plan lot/plan.toml --out all");
    assert!(ran.text.starts_with("picture: 332,227 instructions, 2 frames\nsteps: 20,000 instructions, 0 frames, 20,000 records\n"), "{}", ran.text);
    assert!(folder.read("all/picture.frame1.left.png") == folder.read("out/frame1-left.png"));
    let why =
        "why left 192 120 --vram all/picture.frame1.vram --drawing all/picture.frame1.drawing";
    assert_eq!(folder.vbmodel(why).status, 0);
}

#[test]
fn a_scene_is_a_test_without_a_program() {
    let folder = Folder::with_demo("plan-scene");
    let test = "[[test]]\nname = 's'\nvram = 'out/vram.bin'\ndrawing = 'out/drawing.bin'\nframes = [0, 0]\n";
    folder.write("plan.toml", format!("name = 'scene'\n{test}").as_bytes());
    fs::create_dir(folder.path("parts")).unwrap();
    for frame in [0, 1] {
        fs::copy(folder.path("out/vram.bin"), folder.path(&format!("parts/d.s.frame{frame}.dump")))
            .unwrap();
    }
    // the demo's VRAM holds frame 1 drawn from this scene, and frame 0 of the one before
    let lines = judged(&folder, JUDGE, 1);
    assert!(lines[0].starts_with("fail     d: s: frame 0, left eye: "), "{}", lines[0]);
    assert!(!lines[0].contains("frame 1"), "{}", lines[0]);
}

#[test]
fn folders_and_flat_names_are_the_same() {
    let folder = with_part("plan-flat");
    for name in ["a.frame0.left.png", "a.frame0.right.png", "a.trace"] {
        fs::rename(
            folder.path(&format!("parts/die/{name}")),
            folder.path(&format!("parts/x.y@2.{name}")),
        )
        .unwrap();
    }
    fs::remove_dir(folder.path("parts/die")).unwrap();
    assert_eq!(judged(&folder, JUDGE, 0), ["bin 1: 1", "1 part: 1 pass, 0 fail; yield 100.0 %"]);
    let json = json_lines(&folder.vbmodel(&format!("{JUDGE} --json")).text);
    assert_eq!((&json[1]["part"], &json[1]["attempt"]), (&"x.y".into(), &2.into()));
}

#[test]
fn the_last_test_of_a_part_decides_and_all_are_reported() {
    let folder = with_part("plan-retest");
    assert_eq!(folder.shell("cp -r parts/die parts/die@2; cp -r parts/die parts/die@10").status, 0);
    let other = folder.vbmodel("demo --scale 1 --out o");
    assert_eq!(other.status, 0);
    fs::copy(folder.path("o/frame1-left.png"), folder.path("parts/die@10/a.frame0.left.png"))
        .unwrap();
    let lines = judged(&folder, JUDGE, 1);
    assert!(lines[0].starts_with("fail     die@10: a: frame 0, left eye"), "{lines:?}");
    assert_eq!(lines[1..], ["bin 7: 1", "1 part: 0 pass, 1 fail; yield 0.0 %"]);
    let json = json_lines(&folder.vbmodel(&format!("{JUDGE} --json")).text);
    let decides: Vec<_> =
        json[1..4].iter().map(|part| part["decides"].as_bool().unwrap()).collect();
    assert_eq!(decides, [false, false, true]);
    assert_eq!(json[4]["totals"]["retested"], 2);
}

#[test]
fn what_the_plan_asks_for_and_is_not_there_makes_a_part_invalid() {
    let folder = with_part("plan-missing");
    for (gone, line) in [
        ("a.frame0.left.png", "invalid  die: a: no capture of frame 0, left eye"),
        ("a.trace", "invalid  die: a: no trace"),
    ] {
        let (file, kept) = (folder.path(&format!("parts/die/{gone}")), folder.path("kept"));
        fs::rename(&file, &kept).unwrap();
        assert_eq!(judged(&folder, JUDGE, 2)[0], line);
        fs::rename(&kept, &file).unwrap();
    }
    fs::create_dir(folder.path("parts/empty")).unwrap();
    assert_eq!(judged(&folder, JUDGE, 2)[0], "invalid  empty: a: it has no file");
}

#[test]
fn a_trace_that_is_short_long_or_broken_does_not_pass() {
    let folder = with_part("plan-trace");
    let good = folder.read("parts/die/a.trace");
    let mut wrong = good.clone();
    wrong[16 * 50 + 12] ^= 1;
    wrong[16 * 60] ^= 1;
    let short = &good[..16 * 10];
    for (bytes, status, line) in [
        (short, 2, "invalid  die: a: parts/die/a.trace: agrees for 10 records; 100 were asked for"),
        (
            &[][..],
            2,
            "invalid  die: a: parts/die/a.trace: agrees for 0 records; 100 were asked for",
        ),
        (&good[..1599], 2, "invalid  die: a: parts/die/a.trace (1,599 bytes): refusal 14: "),
        (
            &wrong,
            1,
            "fail     die: a: trace: record 50 differs in the registers' sum after, expected 0x",
        ),
        (
            &wrong[..16 * 55],
            1,
            "fail     die: a: trace: record 50 differs in the registers' sum after, expected 0x",
        ),
    ] {
        folder.write("parts/die/a.trace", bytes);
        let lines = judged(&folder, JUDGE, status);
        assert!(lines[0].starts_with(line), "{}\nnot\n{line}", lines[0]);
    }
    folder.write("parts/die/a.trace", &wrong);
    assert!(judged(&folder, JUDGE, 1)[0].ends_with("; 1 later records differ"));
    // more than were asked for are not compared
    folder.write("parts/die/a.trace", &[good.clone(), wrong].concat());
    judged(&folder, JUDGE, 0);
}

#[test]
fn a_whole_trace_ends_where_the_program_does() {
    // MOV 1, r1; HALT
    let folder = Folder::with_rom("plan-whole", &[0x4021, 0x6800], &[]);
    folder.write(
        "plan.toml",
        b"name = 'w'\n[[test]]\nname = 'w'\nrom = 'a.rom'\nframes = []\ntrace = 'whole'\n",
    );
    assert_eq!(folder.vbmodel("expect --plan plan.toml --out parts/d").status, 0);
    let trace = folder.read("parts/d/w.trace");
    assert_eq!(trace.len(), 32);
    judged(&folder, JUDGE, 0);
    folder.write("parts/d/w.trace", &[&trace[..], &trace[16..]].concat());
    let line = "fail     d: w: trace: the model's program ends after 2 records; the trace has 3";
    assert_eq!(judged(&folder, JUDGE, 1)[0], line);
    folder.write("parts/d/w.trace", &trace[..16]);
    let line = "invalid  d: w: parts/d/w.trace: agrees for 1 records; 2 were asked for";
    assert_eq!(judged(&folder, JUDGE, 2)[0], line);
}

#[test]
fn ambiguous_and_unknown_files_never_pass() {
    let folder = with_part("plan-ambiguous");
    let vram = vec![0; 262_144];
    for (name, line) in [
        ("die/a.frame0.left.raw", "invalid  die: parts/die/a.frame0.left.png and parts/die/a.frame0.left.raw are the same; it must have one"),
        ("die.a.frame0.left.png", "invalid  die: parts/die.a.frame0.left.png and parts/die/a.frame0.left.png are the same; it must have one"),
        ("die/a.frame0.dump", "invalid  die: a: parts/die/a.frame0.dump and parts/die/a.frame0.left.png are two captures of the left eye; it must have one"),
        ("die/A.frame0.left.png", "invalid  die: parts/die/A.frame0.left.png: the name differs only in case from one that the plan asks for"),
        ("Die.a.trace", "invalid  Die: the name differs only in case from another part's"),
    ] {
        folder.write(&format!("parts/{name}"), &vram);
        for extra in ["", " --allow-extra"] {
            let lines = judged(&folder, &format!("{JUDGE}{extra}"), 2);
            assert!(lines.iter().any(|one| one.starts_with(line)), "{line}\nnot in\n{lines:?}");
        }
        fs::remove_file(folder.path(&format!("parts/{name}"))).unwrap();
    }
    for name in [
        "die/notes.txt",
        "die/a.frame1.left.png",
        "die/b.trace",
        ".hidden",
        "readme",
        "die/.a.trace",
    ] {
        folder.write(&format!("parts/{name}"), b"x");
        let lines = judged(&folder, JUDGE, 2);
        let line =
            format!("unknown files in the lot (remove or rename, or give --allow-extra): {name}");
        assert_eq!(lines[0], line);
        judged(&folder, &format!("{JUDGE} --allow-extra"), 0);
        fs::remove_file(folder.path(&format!("parts/{name}"))).unwrap();
    }
}

/// Half of a part's captures under one name and half under the other never make a part that passes.
#[test]
fn one_test_of_a_part_written_in_two_ways_is_invalid() {
    let folder = with_part("plan-spelled");
    for (first, second, line) in [
        (
            "one",
            "one@1",
            "invalid  one: one and one@1 are the same test of the part; it must have one",
        ),
        (
            "one@2",
            "one@02",
            "invalid  one@2: one@02 and one@2 are the same test of the part; it must have one",
        ),
    ] {
        let halves = format!(
            "cd parts && cp -r die '{first}' && mkdir '{second}' && mv '{first}'/*right* '{second}'"
        );
        assert_eq!(folder.shell(&halves).status, 0);
        for extra in ["", " --allow-extra"] {
            assert_eq!(judged(&folder, &format!("{JUDGE}{extra}"), 2)[0], line);
        }
        assert_eq!(folder.shell(&format!("cd parts && rm -r '{first}' '{second}'")).status, 0);
    }
    // flat names, and a first test that is numbered
    let flat = "cd parts && cp die/a.frame0.left.png one.a.frame0.left.png && cp die/a.trace one.a.trace && \
                cp die/a.frame0.right.png one@1.a.frame0.right.png";
    assert_eq!(folder.shell(flat).status, 0);
    assert!(judged(&folder, JUDGE, 2)[0].starts_with("invalid  one: one and one@1 are the same"));
    assert_eq!(folder.shell("cd parts && rm one* && mv die die@1").status, 0);
    judged(&folder, JUDGE, 0);
}

#[test]
fn names_that_are_not_utf_8_are_not_taken_for_one_part() {
    let folder = with_part("plan-not-utf-8");
    let halves = "cd parts && a=$(printf 'b\\377') && b=$(printf 'b\\376') && cp -r die \"$a\" && mkdir \"$b\" && \
                  mv \"$a\"/*right* \"$b\"";
    let made = folder.shell(halves);
    assert_eq!(made.status, 0, "{}", made.error);
    for extra in ["", " --allow-extra"] {
        let lines = judged(&folder, &format!("{JUDGE}{extra}"), 2);
        assert!(lines[0].contains(": the name is not UTF-8"), "{}", lines[0]);
        assert_eq!(lines.last().unwrap(), "2 parts: 1 pass, 0 fail, 1 invalid; yield 50.0 %");
    }
}

#[test]
fn a_folder_that_is_a_link_is_one_part_and_a_link_to_nothing_is_invalid() {
    let folder = with_part("plan-links");
    assert_eq!(folder.shell("mv parts/die kept && ln -s ../kept parts/die").status, 0);
    judged(&folder, JUDGE, 0);
    assert_eq!(folder.shell("ln -s ../kept parts/other").status, 0);
    let lines = judged(&folder, JUDGE, 2);
    assert_eq!(
        lines[0],
        "invalid  die: die and other are the same folder; each part must have its own"
    );
    assert_eq!(
        lines[1],
        "invalid  other: die and other are the same folder; each part must have its own"
    );
    assert_eq!(folder.shell("ln -sfn nowhere parts/other").status, 0);
    for extra in ["", " --allow-extra"] {
        let lines = judged(&folder, &format!("{JUDGE}{extra}"), 2);
        assert_eq!(lines[0], "invalid  other: parts/other: No such file or directory");
    }
}

#[test]
fn a_list_of_parts_with_other_capitals_is_not_overlooked() {
    let folder = with_part("plan-list-capitals");
    folder.write("parts/Parts.csv", b"part\ndie\nlost\n");
    for extra in ["", " --allow-extra"] {
        let message = "vbmodel: parts/Parts.csv: the list of parts must be written parts.csv";
        folder.refused(&format!("{JUDGE}{extra}"), message);
    }
}

#[test]
fn the_list_of_parts_says_where_they_lie_and_which_there_are() {
    let folder = with_part("plan-list");
    folder.write("parts/parts.csv", b"part;wafer;x;y;card\ndie;W7;-3;4;B\n");
    let json = json_lines(&folder.vbmodel(&format!("{JUDGE} --json")).text);
    let place = ["wafer", "x", "y"].map(|name| json[1][name].clone());
    assert_eq!(place, [Value::from("W7"), (-3).into(), 4.into()]);
    assert_eq!(json[1]["columns"]["card"], "B");
    folder.write("parts/parts.csv", b"part\ndie\nlost\n");
    assert_eq!(judged(&folder, JUDGE, 2)[0], "invalid  lost: parts.csv lists it; it has no file");
    folder.write("parts/parts.csv", b"part\nother\n");
    let lines = judged(&folder, JUDGE, 2);
    assert_eq!(lines[0], "invalid  die: parts.csv does not list it");
    for (list, message) in [
        (&b"name,x\na,1\n"[..], "line 1: the columns are `name,x`; one must be `part`"),
        (
            b"part,x,y\ndie,1,two\n",
            "line 2: y is `two`; it must be a whole number from -32,767 to 32,767",
        ),
        (
            b"part,x,y\ndie,-32768,1\n",
            "line 2: x is `-32768`; it must be a whole number from -32,767 to 32,767",
        ),
        (b"part,x,y\ndie,1,\n", "line 2: x or y is empty; a part has both or none"),
        (b"part\ndie\nb\ndie\n", "line 4: part die is on line 2 too"),
        (
            b"part,wafer,x,y\ndie,W,1,2\nb,W,1,2\n",
            "line 3: part b lies where part die lies, x 1, y 2",
        ),
        (b"part,x,y\n,1,2\n", "line 2: part is empty; it must be a part's name"),
        (
            b"part,note\ndie,\"a\nlost,b\n",
            "line 2: a quoted value is not closed; it must end on the line where it begins",
        ),
        (
            b"part,note\ndie,\"a\nlost,b\"\n",
            "line 2: a quoted value is not closed; it must end on the line where it begins",
        ),
        (b"part,x,part\ndie,1,lost\n", "line 1: the column `part` appears twice"),
        (b"part,x\ndie\n", "line 2: the line has 1 values; the first line names 2 columns"),
    ] {
        folder.write("parts/parts.csv", list);
        folder.refused(JUDGE, &format!("vbmodel: parts/parts.csv: {message}"));
    }
}

#[test]
fn every_file_of_the_lot_may_be_bad_and_the_others_are_judged() {
    let folder = with_part("plan-bad-lot");
    assert_eq!(folder.shell("cp -r parts/die parts/good").status, 0);
    for name in ["a.frame0.left.png", "a.trace"] {
        let path = folder.path(&format!("parts/die/{name}"));
        let good = fs::read(&path).unwrap();
        let long = [good.as_slice(), b"x"].concat();
        for bytes in [&b""[..], &good[..good.len() - 1], &long, b"\x89PNG\r\n\x1a\n"] {
            fs::write(&path, bytes).unwrap();
            let lines = judged(&folder, JUDGE, 2);
            assert!(lines[0].starts_with("invalid  die: a: parts/die/a."), "{}", lines[0]);
            assert_eq!(lines.last().unwrap(), "2 parts: 1 pass, 0 fail, 1 invalid; yield 50.0 %");
        }
        fs::remove_file(&path).unwrap();
        fs::create_dir(&path).unwrap();
        assert!(judged(&folder, JUDGE, 2)[0].contains(": is a folder; it must be "));
        fs::remove_dir(&path).unwrap();
        assert_eq!(folder.shell(&format!("mkfifo parts/die/{name}")).status, 0);
        assert!(judged(&folder, JUDGE, 2)[0].contains(": is a device or a pipe; it must be "));
        fs::remove_file(&path).unwrap();
        fs::write(&path, good).unwrap();
    }
    for (lot, message) in [
        ("none", "none: No such file or directory; it must be a folder of parts"),
        ("plan.toml", "plan.toml: Not a directory; it must be a folder of parts"),
    ] {
        folder.refused(&format!("judge --plan plan.toml {lot}"), &format!("vbmodel: {message}"));
    }
    fs::create_dir(folder.path("nothing")).unwrap();
    let message = "vbmodel: nothing: has no part; a part is a folder of captures and traces";
    folder.refused("judge --plan plan.toml nothing", message);
}

#[test]
fn a_report_is_never_written_over_what_was_read() {
    let folder = with_part("plan-over");
    let before = folder.read("plan.toml");
    for path in ["plan.toml", "lot/demo.rom", "parts/die/a.trace"] {
        let ran = folder.vbmodel(&format!("{JUDGE} --html {path}"));
        assert_eq!(ran.status, 2, "{path}: {}", ran.text);
        assert!(ran.error.contains(path), "{}", ran.error);
    }
    assert_eq!(folder.read("plan.toml"), before);
}
