//! The ten-line examples compile, link and print what they should; README shows them as they are.

use std::path::{Path, PathBuf};
use std::process::Command;

#[path = "../examples/ten_lines.rs"]
mod ten_lines;

const PRINTED: &str = "8 instructions, pixel 2\n";

fn root() -> PathBuf {
    Path::new(env!("CARGO_MANIFEST_DIR")).join("../..")
}

#[test]
fn from_c() {
    let binary = Path::new(env!("CARGO_TARGET_TMPDIR")).join("ten_lines");
    let compiler = std::env::var("CC").unwrap_or_else(|_| "cc".into());
    let compiled = Command::new(&compiler)
        .args(["-std=c99", "-Wall", "-Wextra", "-Werror", "-I"])
        .arg(root().join("include"))
        .arg(root().join("rust/vb/examples/ten_lines.c"))
        .arg(vbsys::LIBRARY)
        .arg("-o")
        .arg(&binary)
        .output()
        .unwrap_or_else(|error| panic!("{compiler} cannot be run: {error}"));
    assert!(compiled.status.success(), "{}", String::from_utf8_lossy(&compiled.stderr));
    let ran = Command::new(&binary).output().expect("the program runs");
    assert!(ran.status.success());
    assert_eq!(String::from_utf8_lossy(&ran.stdout), PRINTED);
}

#[test]
fn from_rust() {
    ten_lines::main();
}

/// A fenced block of README in a language, where it has one.
fn shown(readme: &str, language: &str) -> Option<String> {
    let (_, after) = readme.split_once(&format!("\n```{language}\n"))?;
    Some(after.split("```").next()?.to_string())
}

#[test]
fn readme_shows_them() {
    let Ok(readme) = std::fs::read_to_string(root().join("README.md")) else { return };
    for (language, example) in [
        ("c", include_str!("../examples/ten_lines.c")),
        ("rust", include_str!("../examples/ten_lines.rs")),
    ] {
        if let Some(text) = shown(&readme, language) {
            assert_eq!(text, example, "README's {language} example");
        }
    }
}
