//! The rules of a verdict in `judge`: nothing that was not fully seen passes, and nothing ambiguous is chosen.

mod common;

use std::fs;

use common::Folder;

/// The demo's files, and a folder `lot` with one part, `a`, that passes.
fn lot(name: &str) -> Folder {
    let folder = Folder::with_demo(name);
    fs::create_dir(folder.path("lot")).unwrap();
    for (from, to) in [
        ("vram.bin", "all.vram"),
        ("drawing.bin", "all.drawing"),
        ("frame1-left.png", "a.left.png"),
        ("frame1-right.png", "a.right.png"),
    ] {
        copy(&folder, from, to);
    }
    assert_eq!(folder.vbmodel("judge lot").status, 0);
    folder
}

fn copy(folder: &Folder, from: &str, to: &str) {
    fs::copy(folder.path(&format!("out/{from}")), folder.path(&format!("lot/{to}"))).unwrap();
}

/// Judges the lot, whose part has this line and makes the status 2.
fn invalid(folder: &Folder, arguments: &str, line: &str) {
    let ran = folder.vbmodel(&format!("judge {arguments}"));
    assert_eq!(ran.status, 2, "{}", ran.text);
    assert!(ran.text.lines().any(|one| one == line), "{line}\nnot in\n{}", ran.text);
}

#[test]
fn a_part_without_the_other_eye_is_invalid_unless_one_eye_is_asked_for() {
    let folder = lot("verdicts-eyes");
    fs::remove_file(folder.path("lot/a.right.png")).unwrap();
    let line = "invalid  a: no capture of the right eye; both eyes are asked for (--eyes left asks for one); \
                frame 0, left eye equal";
    invalid(&folder, "lot", line);
    let ran = folder.vbmodel("judge lot --eyes left");
    assert_eq!(
        (ran.status, ran.text.lines().next()),
        (0, Some("pass     a: frame 0, left eye equal"))
    );
    let json = folder.vbmodel("judge lot --json");
    let part = json.text.lines().nth(1).unwrap();
    assert!(part.starts_with("{\"name\": \"a\", \"verdict\": \"invalid\""), "{}", json.text);
}

#[test]
fn a_capture_of_an_eye_that_was_not_asked_for_is_judged_too() {
    let folder = lot("verdicts-not-asked");
    copy(&folder, "frame0-right.png", "a.right.png");
    assert_eq!(folder.vbmodel("judge lot --eyes left").status, 1);
}

#[test]
fn two_captures_of_one_eye_are_invalid_in_any_format() {
    let folder = lot("verdicts-two-captures");
    for (from, to, line) in [
        ("vram.bin", "a.left.raw", "invalid  a: lot/a.left.png and lot/a.left.raw are the same capture; it must have one"),
        ("frame1-left.png", "a.frame0.left.png", "invalid  a: lot/a.frame0.left.png and lot/a.left.png are the same capture; it must have one"),
        ("vram.bin", "a.dump", "invalid  a: lot/a.dump and lot/a.left.png are two captures of the left eye; it must have one"),
    ] {
        copy(&folder, from, to);
        invalid(&folder, "lot", line);
        invalid(&folder, "lot --allow-extra", line);
        fs::remove_file(folder.path(&format!("lot/{to}"))).unwrap();
    }
}

#[test]
fn two_scenes_are_invalid() {
    let folder = lot("verdicts-two-scenes");
    let files = ["wram", "vram", "processor", "drawing"].map(|k| format!("--{k} out/{k}.bin"));
    let run = format!("run --rom out/rom.bin --budget 0 {} --save-state out/s", files.join(" "));
    assert_eq!(folder.vbmodel(&run).status, 0);
    copy(&folder, "s", "all.state");
    invalid(
        &folder,
        "lot",
        "invalid  a: lot/all.state and lot/all.vram are two scenes; it must have one",
    );
    fs::remove_file(folder.path("lot/all.vram")).unwrap();
    invalid(
        &folder,
        "lot",
        "invalid  a: lot/all.state and lot/all.drawing are two scenes; it must have one",
    );
    fs::remove_file(folder.path("lot/all.drawing")).unwrap();
    assert_eq!(folder.vbmodel("judge lot").status, 0);
    copy(&folder, "vram.bin", "a.vram");
    copy(&folder, "s", "a.state");
    invalid(
        &folder,
        "lot",
        "invalid  a: lot/a.state and lot/a.vram are two scenes; it must have one",
    );
    folder.write("b.csv", b"name,state,vram,left,right\nb,out/s,out/vram.bin,out/frame1-left.png,out/frame1-right.png\n");
    invalid(
        &folder,
        "b.csv",
        "invalid  b: out/s and out/vram.bin are two scenes; it must have one",
    );
}

#[test]
fn a_name_that_differs_only_in_case_is_invalid() {
    let folder = lot("verdicts-case");
    copy(&folder, "frame0-left.png", "d3.Left.png");
    copy(&folder, "frame0-left.png", "d4.Frame1.left.png");
    for line in [
        "invalid  d3: lot/d3.Left.png: the ending must be written `.left.png`",
        "invalid  d4.frame1: lot/d4.Frame1.left.png: `Frame1` is not a frame; write frame0 or frame1",
    ] {
        invalid(&folder, "lot", line);
        invalid(&folder, "lot --allow-extra", line);
    }
    copy(&folder, "frame1-left.png", "A.left.png");
    invalid(&folder, "lot", "invalid  A: the names A and a differ only in case");
    invalid(&folder, "lot", "invalid  a: the names A and a differ only in case");
}

#[test]
fn a_frame_that_is_neither_0_nor_1_is_invalid() {
    let folder = lot("verdicts-frame");
    copy(&folder, "frame1-left.png", "b.frame2.left.png");
    invalid(
        &folder,
        "lot",
        "invalid  b: lot/b.frame2.left.png: `frame2` is not a frame; write frame0 or frame1",
    );
}

#[test]
fn an_unknown_file_in_the_lots_folder_makes_the_status_2() {
    let folder = lot("verdicts-unknown");
    folder.write("lot/a\nb.txt", b"");
    let ran = folder.vbmodel("judge lot");
    let text = "pass     a: frame 0, left eye equal; right eye equal\n\
                unknown files in the lot (remove or rename, or give --allow-extra): a\\nb.txt\n\
                1 part: 1 pass, 0 fail, 1 unknown file\nlot    lot, ";
    assert!(ran.status == 2 && ran.text.starts_with(text), "{}", ran.text);
    assert_eq!(folder.vbmodel("judge lot --allow-extra").status, 0);
    let json = folder.vbmodel("judge lot --json").text;
    assert!(json.contains("\"unknown_files\": 1}, \"unknown\": [\"a\\\\nb.txt\"]"), "{json}");
}

/// The part of a manifest with such a further key.
fn manifest(folder: &Folder, name: &str, key: &str) {
    let files = "vram = 'out/vram.bin'\ndrawing = 'out/drawing.bin'\nframe = 1\n\
                 left = 'out/frame1-left.png'\nright = 'out/frame1-right.png'\n";
    folder.write("lot.toml", format!("[[part]]\nname = '{name}'\n{files}{key}\n").as_bytes());
}

#[test]
fn a_manifests_threshold_has_the_options_range() {
    let folder = Folder::with_demo("verdicts-threshold");
    for (given, status) in [(0, 2), (1, 0), (42, 0), (43, 2), (255, 2)] {
        manifest(&folder, "a", &format!("threshold = {given}"));
        let ran = folder.vbmodel("judge lot.toml");
        assert_eq!(ran.status, status, "{given}: {}", ran.text);
        if status == 2 {
            let line = format!("invalid  a: lot.toml: threshold is {given}; it must be 1 to 42\n");
            assert!(ran.text.starts_with(&line), "{}", ran.text);
        }
    }
    folder.write("all.toml", b"threshold = 255\n[[part]]\nname = 'a'\n");
    folder.refused(
        "judge all.toml",
        "vbmodel: all.toml (36 bytes): threshold is 255; it must be 1 to 42",
    );
}

#[test]
fn a_part_with_an_empty_name_is_invalid() {
    let folder = Folder::with_demo("verdicts-name");
    manifest(&folder, " ", "");
    invalid(
        &folder,
        "lot.toml",
        "invalid  part 1: lot.toml: the name is empty; it must have at least one character",
    );
    folder.write("b.csv", b"name,vram,drawing,frame,left,right\n,out/vram.bin,out/drawing.bin,1,out/frame1-left.png,out/frame1-right.png\n");
    invalid(
        &folder,
        "b.csv",
        "invalid  line 2: b.csv: the name is empty; it must have at least one character",
    );
}

#[test]
fn the_second_of_two_parts_of_one_name_is_invalid() {
    let folder = Folder::with_demo("verdicts-names");
    let part = "[[part]]\nname = 'a'\nvram = 'out/vram.bin'\ndrawing = 'out/drawing.bin'\nleft = 'out/frame1-left.png'\n";
    folder.write("lot.toml", part.repeat(2).as_bytes());
    let ran = folder.vbmodel("judge lot.toml");
    assert_eq!(ran.status, 2);
    assert!(
        ran.text.contains("invalid  a: the name a is given to an earlier part\n"),
        "{}",
        ran.text
    );
}

/// The manifest's parts, each with the scene of the demo's frame 1 and these files.
fn manifest_of(folder: &Folder, parts: &[(&str, &str)]) {
    let part = |(name, files): &(&str, &str)| {
        format!(
            "[[part]]\nname = '{name}'\nvram = 'out/vram.bin'\ndrawing = 'out/drawing.bin'\n{files}\n"
        )
    };
    folder.write("lot.toml", parts.iter().map(part).collect::<String>().as_bytes());
}

#[test]
fn a_capture_that_two_parts_name_is_invalid_for_both() {
    let folder = Folder::with_demo("verdicts-shared");
    let own = "left = 'out/frame1-left.png'\nright = 'out/frame1-right.png'\n";
    manifest_of(&folder, &[("a", own), ("b", own)]);
    for (part, other) in [("a", "b"), ("b", "a")] {
        let line = format!(
            "invalid  {part}: out/frame1-left.png: is the capture of {other} too; each eye of a part must have its own file"
        );
        invalid(&folder, "lot.toml", &line);
    }
    // a whole VRAM has both eyes of both frames, of one part
    let dump = "capture = 'out/vram.bin'\nframe = 1\n";
    assert_eq!(folder.shell("cp out/vram.bin die.dump").status, 0);
    manifest_of(&folder, &[("a", &dump.replace("out/vram.bin", "die.dump")), ("b", dump)]);
    assert_eq!(folder.vbmodel("judge lot.toml").status, 0);
    manifest_of(&folder, &[("a", dump), ("b", dump)]);
    assert_eq!(folder.vbmodel("judge lot.toml").status, 2);
    let both = "left = 'die.dump'\nright = 'die.dump'\nframe = 1\n";
    manifest_of(&folder, &[("a", both), ("b", &both.replace("frame = 1", "frame = 0"))]);
    let ran = folder.vbmodel("judge lot.toml");
    assert!(ran.text.starts_with("pass     a: "), "{}", ran.text);
}

#[test]
fn one_picture_is_not_taken_for_both_eyes() {
    let folder = Folder::with_demo("verdicts-both-eyes");
    // a blank scene, which both eyes show alike
    folder.write("v", &[0; 262_144]);
    folder.write("d", &[0; 26]);
    assert_eq!(folder.vbmodel("draw --vram v --drawing d --out blank").status, 0);
    let picture = "blank/frame0-left.png";
    let message = format!(
        "vbmodel: {picture}: is given for both eyes; each eye needs its own capture, or one whole VRAM"
    );
    folder.refused(
        &format!("compare --vram v --drawing d --left {picture} --right {picture}"),
        &message,
    );
    let part = format!("[[part]]\nname = 'a'\nvram = 'v'\ndrawing = 'd'\nleft = '{picture}'\nright = '{picture}'\n");
    folder.write("lot.toml", part.as_bytes());
    let line = format!(
        "invalid  a: {picture}: is the capture of both eyes; each eye of a part must have its own file"
    );
    invalid(&folder, "lot.toml", &line);
}

#[test]
fn a_quoted_value_does_not_hide_the_lines_after_it() {
    let folder = Folder::with_demo("verdicts-quotes");
    let files = "out/vram.bin,out/drawing.bin,1,out/frame1-left.png,out/frame1-right.png";
    let text = format!("vram,drawing,frame,left,right,name\n{files},\"a\n{files},b\n");
    folder.write("lot.csv", text.as_bytes());
    let message =
        "vbmodel: lot.csv: line 2: a quoted value is not closed; it must end on the line where it begins";
    folder.refused("judge lot.csv", message);
}

#[test]
fn the_lots_scene_written_in_two_ways_is_invalid() {
    let folder = lot("verdicts-two-scenes-of-all");
    folder.write("lot/all.VRAM", &[0; 262_144]);
    let line = "invalid  a: lot/all.VRAM: the ending must be written `.vram`";
    invalid(&folder, "lot", line);
    // a part with its own scene needs none of the lot's
    copy(&folder, "vram.bin", "a.vram");
    copy(&folder, "drawing.bin", "a.drawing");
    assert_eq!(folder.vbmodel("judge lot").status, 0);
}

#[test]
fn names_that_are_not_utf_8_are_not_taken_for_one_part() {
    let folder = lot("verdicts-not-utf-8");
    let halves = "cd lot && mv a.left.png \"$(printf 'a\\377.left.png')\" && \
                  mv a.right.png \"$(printf 'a\\376.right.png')\"";
    assert_eq!(folder.shell(halves).status, 0);
    let ran = folder.vbmodel("judge lot --allow-extra");
    assert!(ran.status == 2 && ran.text.contains(": the name is not UTF-8\n"), "{}", ran.text);
}

/// A pipe that nobody writes to would make the command wait for ever.
#[test]
fn a_pipe_among_the_captures_is_invalid_and_the_others_are_judged() {
    let folder = lot("verdicts-pipe");
    assert_eq!(folder.shell("mkfifo lot/b.left.png lot/c.vram").status, 0);
    let ran = folder.vbmodel("judge lot");
    assert_eq!(ran.status, 2);
    for start in [
        "pass     a: frame 0, left eye equal; right eye equal\n",
        "invalid  b: lot/b.left.png: is a device or a pipe; it must be a capture",
        "invalid  c: lot/c.vram: is a device or a pipe; it must be VRAM of 262,144 bytes",
    ] {
        assert!(ran.text.contains(start), "{start}\nnot in\n{}", ran.text);
    }
    manifest_of(&folder, &[("a", "left = '-'\nright = 'out/frame1-right.png'\n")]);
    let line = "invalid  a: lot.toml: a file is `-`, standard input; it must be the name of a file";
    invalid(&folder, "lot.toml", line);
}
