//! Files that the tool writes: one file under two names, what is not a regular file, files that may not be written, and a
//! run whose outputs fail.

mod common;

use std::fs;
use std::os::unix::fs::{symlink, FileTypeExt, PermissionsExt};

use common::Folder;

const HALT: u16 = 0x6800;
const BRANCH_TO_ITSELF: u16 = 0x8A00;

/// A folder with a ROM that halts at once.
fn with_rom(name: &str) -> Folder {
    Folder::with_rom(name, &[HALT], &[])
}

#[test]
fn two_spellings_of_one_file_are_refused() {
    let folder = with_rom("outputs-spellings");
    fs::create_dir(folder.path("x")).unwrap();
    folder.write("there", b"before");
    // a new name in a folder that is there
    fs::hard_link(folder.path("there"), folder.path("hard")).unwrap();
    symlink("there", folder.path("soft")).unwrap();
    symlink("x", folder.path("y")).unwrap();
    symlink("not-yet", folder.path("dangling")).unwrap();
    for (first, second) in [
        ("a", "./a"),
        ("a", "x/../a"),
        ("x/a", "y/a"),
        ("there", "hard"),
        ("there", "soft"),
        ("dangling", "not-yet"),
    ] {
        folder.refused(
            &format!("run --rom a.rom --save-wram {first} --save-vram {second}"),
            &format!("vbmodel: {second}: named for two outputs"),
        );
    }
    assert_eq!(folder.read("there"), b"before");
    let demo = Folder::with_demo("outputs-spellings-draw");
    demo.refused(
        "draw --vram out/vram.bin --drawing out/drawing.bin --out ./o --save-vram o/frame0-left.png",
        "vbmodel: o/frame0-left.png: named for two outputs",
    );
}

#[test]
fn names_that_are_not_utf_8_are_kept_apart() {
    let folder = with_rom("outputs-bytes");
    let ran = folder.shell(
        "\"$VB\" run --rom a.rom --save-wram \"$(printf 'a\\377')\" --save-processor \"$(printf 'a\\376')\"",
    );
    assert_eq!(ran.status, 0, "{}", ran.error);
    let mut lengths: Vec<u64> = fs::read_dir(folder.path("."))
        .unwrap()
        .map(|entry| entry.unwrap())
        .filter(|entry| entry.file_name() != "a.rom")
        .map(|entry| entry.metadata().unwrap().len())
        .collect();
    lengths.sort_unstable();
    assert_eq!(lengths, [180, 65_536]);
}

#[test]
fn a_fifo_and_a_device_are_written_through() {
    let folder = with_rom("outputs-through");
    let ran = folder.shell(
        "mkfifo pipe && { cat pipe >got & } && \"$VB\" run --rom a.rom --save-processor pipe --save-wram /dev/null \
         --save-vram /dev/null && wait",
    );
    assert_eq!(ran.status, 0, "{}", ran.error);
    assert_eq!(folder.read("got").len(), 180);
    assert!(fs::metadata(folder.path("pipe")).unwrap().file_type().is_fifo());
    assert!(fs::metadata("/dev/null").unwrap().file_type().is_char_device());
    let ran = folder.shell("\"$VB\" run --rom a.rom --save-processor /dev/stdout | wc -c");
    let text = folder.vbmodel("run --rom a.rom --save-processor /dev/null").text;
    let longer = text.len() + "/dev/stdout".len() - "/dev/null".len() + 180;
    assert_eq!(ran.text.trim(), longer.to_string());
    // standard output may be a file: what is printed goes on after what was written
    let ran =
        folder.shell("\"$VB\" run --rom a.rom --save-processor /dev/stdout >both; wc -c <both");
    assert_eq!(ran.text.trim(), longer.to_string());
}

#[test]
fn a_symlink_is_followed() {
    let folder = with_rom("outputs-links");
    fs::create_dir(folder.path("real")).unwrap();
    folder.write("real/file", b"before");
    symlink("real/file", folder.path("link")).unwrap();
    symlink("real/new", folder.path("dangling")).unwrap();
    let ran = folder.vbmodel("run --rom a.rom --save-processor link --save-drawing dangling");
    assert_eq!(ran.status, 0, "{}", ran.error);
    for (link, target, length) in [("link", "real/file", 180), ("dangling", "real/new", 26)] {
        assert!(folder.path(link).is_symlink());
        assert_eq!(folder.read(target).len(), length);
    }
}

#[test]
fn a_file_that_may_not_be_written_is_left() {
    let folder = with_rom("outputs-readonly");
    folder.write("kept", b"before");
    fs::set_permissions(folder.path("kept"), fs::Permissions::from_mode(0o444)).unwrap();
    folder.refused(
        "run --rom a.rom --save-wram new --save-processor kept",
        "vbmodel: kept: is read-only; nothing was written",
    );
    assert_eq!(folder.read("kept"), b"before");
    // a file that is replaced keeps its rights, a new one has a new file's
    folder.write("private", b"before");
    fs::set_permissions(folder.path("private"), fs::Permissions::from_mode(0o640)).unwrap();
    let ran =
        folder.shell("umask 026; \"$VB\" run --rom a.rom --save-wram private --save-vram new");
    assert_eq!(ran.status, 0, "{}", ran.error);
    let rights = |name: &str| fs::metadata(folder.path(name)).unwrap().permissions().mode() & 0o777;
    assert_eq!((rights("private"), rights("new")), (0o640, 0o640));
}

#[test]
fn standard_output_that_cannot_be_written_is_an_error() {
    let folder = with_rom("outputs-full");
    for arguments in ["run --rom a.rom", "run --rom a.rom --json", "--help", "--version"] {
        let ran = folder.shell(&format!("\"$VB\" {arguments} >/dev/full"));
        assert_eq!(ran.status, 2, "{arguments}");
        let message = "vbmodel: standard output: No space left on device (os error 28)\n";
        assert_eq!(ran.error, message, "{arguments}");
    }
    // a reader that goes away is forgiven
    let ran = folder.shell("{ \"$VB\" run --rom a.rom; echo $? >status; } | :");
    assert_eq!((ran.error.as_str(), folder.read("status").as_slice()), ("", &b"0\n"[..]));
}

#[test]
fn a_run_tests_its_outputs_first() {
    let folder = Folder::with_rom("outputs-first", &[BRANCH_TO_ITSELF], &[]);
    // this would take days; it is refused at once
    folder.refused(
        "run --rom a.rom --budget 0xFFFF_FFFF_FFFF --save-wram no/such/../../a.rom/x",
        "vbmodel: no/such/../../a.rom/x: there is no folder no/such/../../a.rom; nothing was written",
    );
}

#[test]
fn the_answer_is_printed_whatever_happens_to_a_file() {
    let folder = with_rom("outputs-answer");
    let ran = folder.vbmodel("run --rom a.rom --save-wram new --save-vram /dev/full");
    assert_eq!(ran.status, 2);
    assert!(ran.text.starts_with("answer:       halted"), "{}", ran.text);
    assert!(!ran.text.contains("written:"), "{}", ran.text);
    let message = "vbmodel: /dev/full: No space left on device; nothing was written\n";
    assert_eq!(ran.error, message);
    assert_eq!(folder.names(), ["a.rom"]);
    let json = folder.vbmodel("run --rom a.rom --save-vram /dev/full --json");
    let value: serde_json::Value = serde_json::from_str(&json.text).unwrap();
    assert_eq!((json.status, value["count"].as_u64()), (2, Some(1)));
    assert_eq!(value["error"], "/dev/full: No space left on device; nothing was written");
    assert_eq!(value["written"], serde_json::json!([]));
}

#[test]
fn compare_does_not_write_over_its_own_capture() {
    let folder = Folder::with_demo("outputs-capture");
    let scene = "--vram out/vram.bin --drawing out/drawing.bin --frame 1";
    fs::copy(folder.path("out/frame0-left.png"), folder.path("out/compare-frame1-left.png"))
        .unwrap();
    let before = folder.read("out/compare-frame1-left.png");
    folder.refused(
        &format!("compare {scene} --eyes left --left out/compare-frame1-left.png"),
        "vbmodel: out/compare-frame1-left.png: is read by this command, and would be written over; nothing was written",
    );
    assert!(folder.read("out/compare-frame1-left.png") == before);
}
