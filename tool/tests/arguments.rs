//! How the tool takes its arguments, and how it is stopped.

mod common;

use std::process::{Command, Stdio};

use common::Folder;

const SCENE: &str = "--vram out/vram.bin --drawing out/drawing.bin";

fn with_loop(name: &str) -> Folder {
    Folder::with_rom(name, &[0x8A00], &[])
}

#[test]
fn argument_errors_are_json_where_json_is_asked_for() {
    let folder = Folder::new("arguments-json");
    for arguments in
        ["run --json", "why left --json", "draw --scale 0 --json", "compare --fly --json"]
    {
        let ran = folder.vbmodel(arguments);
        assert_eq!(ran.status, 2, "{arguments}");
        assert!(ran.error.starts_with("vbmodel: "), "{}", ran.error);
        let value: serde_json::Value = serde_json::from_str(&ran.text).unwrap();
        let error = value["error"].as_str().unwrap();
        assert!(ran.error.contains(error.lines().next().unwrap()), "{error}");
    }
    assert_eq!(folder.vbmodel("run").text, "");
}

#[test]
fn hexadecimal_numbers_and_underscores_are_taken() {
    let folder = with_loop("arguments-numbers");
    let ran = folder.vbmodel("run --rom a.rom --budget 0x1_0000");
    assert!(ran.text.contains("instructions: 65,536 of at most 65,536\n"), "{}", ran.text);
    let demo = Folder::with_demo("arguments-numbers-why");
    let hex = demo.vbmodel(&format!("why left 0xC0 0x78 {SCENE}"));
    assert_eq!(hex.text, demo.vbmodel(&format!("why left 192 120 {SCENE}")).text);
    let wrong = demo.vbmodel(&format!("draw {SCENE} --frame one"));
    assert!(
        wrong.error.contains("`one` is not a whole number; write 1000, 1_000 or 0x3E8"),
        "{}",
        wrong.error
    );
}

#[test]
fn a_dash_is_standard_input() {
    let folder = Folder::with_demo("arguments-dash");
    let vram = folder.read("out/vram.bin");
    let plain = folder.vbmodel(&format!("why left 192 120 {SCENE}"));
    let fed = folder.vbmodel_fed("why left 192 120 --vram - --drawing out/drawing.bin", &vram);
    assert_eq!((fed.status, fed.text), (0, plain.text));
    let short = folder.vbmodel_fed("why left 0 0 --vram - --drawing out/drawing.bin", &vram[1..]);
    let message = "vbmodel: standard input (262,143 bytes): refusal 3: VRAM has 262,143 bytes; it must have 262,144\n";
    assert_eq!((short.status, short.error.as_str()), (2, message));
    let twice = folder.vbmodel_fed("why left 0 0 --vram - --drawing -", &vram);
    let message =
        "vbmodel: -: only one input can be `-`; it must be a drawing record of 26 bytes\n";
    assert_eq!((twice.status, twice.error.as_str()), (2, message));
}

#[test]
fn the_demos_next_command_runs_as_printed() {
    let folder = Folder::new("arguments-next");
    for out in ["out", "'my lot'"] {
        let demo = folder.shell(&format!("\"$VB\" demo --scale 1 --out {out}"));
        assert_eq!(demo.status, 0, "{}", demo.error);
        let next = demo.text.lines().find_map(|line| line.strip_prefix("next: ")).unwrap();
        let ran = folder.shell(next);
        assert_eq!(ran.status, 0, "{next}: {}", ran.error);
        assert!(ran.text.starts_with("pixel (192, 120) of the left eye: "), "{}", ran.text);
    }
}

/// As soon as the signal is taken, which is before the program is read.
#[test]
fn ctrl_c_prints_and_writes_what_was_done() {
    let folder = with_loop("arguments-interrupt");
    let child = Command::new(env!("CARGO_BIN_EXE_vbmodel"))
        .args([
            "run",
            "--rom",
            "a.rom",
            "--budget",
            "0xFFFF_FFFF_FFFF",
            "--save-processor",
            "p",
            "--json",
        ])
        .current_dir(folder.path("."))
        .stdout(Stdio::piped())
        .spawn()
        .unwrap();
    common::interrupt(child.id());
    let output = child.wait_with_output().unwrap();
    assert_eq!(output.status.code(), Some(130));
    let value: serde_json::Value = serde_json::from_slice(&output.stdout).unwrap();
    assert_eq!(value["answer"], "interrupted");
    assert!(value["count"].as_u64().is_some());
    assert_eq!(value["pc"], 0xFFFF_FFF0u32);
    assert_eq!(folder.read("p").len(), 180);
}

/// A command that waits for its input, or that has nothing to say so far, says that it was stopped.
#[test]
fn a_signal_is_answered_in_every_command() {
    let folder = with_loop("arguments-signals");
    for arguments in ["run --rom -", "disasm -", "replay --rom - x"] {
        let mut child = Command::new(env!("CARGO_BIN_EXE_vbmodel"))
            .args(arguments.split(' '))
            .current_dir(folder.path("."))
            .stdin(Stdio::piped())
            .stdout(Stdio::piped())
            .stderr(Stdio::piped())
            .spawn()
            .unwrap();
        // it stays open, and nothing comes
        let input = child.stdin.take();
        common::interrupt(child.id());
        let output = child.wait_with_output().unwrap();
        drop(input);
        let error = String::from_utf8(output.stderr).unwrap();
        let answer = (output.status.code(), error.as_str());
        assert_eq!(answer, (Some(130), "vbmodel: stopped by a signal\n"), "{arguments}");
    }
}

/// On a terminal of 30 columns.
#[test]
fn the_progress_line_fits_its_terminal() {
    let folder = with_loop("arguments-progress");
    let line = |budget| {
        format!("stty cols 30 rows 20; \"$VB\" run --rom a.rom --budget {budget} >/dev/null")
    };
    let Some((_, text)) = folder.terminal_until(" of at most ", line) else { return };
    let lines: Vec<&str> =
        text.split(['\r', '\n']).map(|line| line.trim_start_matches("\x1b[K")).collect();
    assert!(lines.iter().any(|line| line.contains(" of at most ")), "{text:?}");
    assert!(lines.iter().all(|line| line.chars().count() < 30), "{text:?}");
}
