//! `vbmodel selftest` finds a library with one wrong instruction, and one with one wrong rule of drawing.

use std::process::Command;

/// Runs the self-test of a program; gives its status and what it printed.
fn selftest(program: &str) -> (Option<i32>, String) {
    let ran =
        Command::new(program).args(["selftest", "--seconds", "2", "--seed", "1"]).output().unwrap();
    (ran.status.code(), String::from_utf8(ran.stdout).unwrap())
}

#[test]
fn a_wrong_instruction_is_found() {
    let (status, text) = selftest(env!("CARGO_BIN_EXE_wrong_instruction"));
    assert_eq!(status, Some(3), "{text}");
    assert!(text.contains("\nDIFFERS  programs "), "{text}");
    assert!(text.contains("\nagrees   frames "), "{text}");
}

#[test]
fn a_wrong_rule_of_drawing_is_found() {
    let (status, text) = selftest(env!("CARGO_BIN_EXE_wrong_pixel"));
    assert_eq!(status, Some(3), "{text}");
    assert!(text.contains("\nDIFFERS  frames ") && text.contains("\nDIFFERS  demo "), "{text}");
    assert!(text.contains("\nagrees   programs "), "{text}");
}
