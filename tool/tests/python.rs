//! The shared library and the Python module over vb.h, with their own tests and the example that draws a PNG.

mod common;

use std::path::{Path, PathBuf};
use std::process::{Command, Output};

use common::{Folder, Rgb};

fn python() -> PathBuf {
    Path::new(env!("CARGO_MANIFEST_DIR")).join("../python")
}

/// The shared library next to the one that is linked.
fn shared() -> PathBuf {
    Path::new(vbsys::LIBRARY).with_file_name(format!("libvb.so.{}", vbsys::VERSION))
}

/// Runs Python with this shared library.
fn run(folder: &Folder, shared: &Path, script: &str, arguments: &[&str]) -> Output {
    Command::new("python3")
        .arg("-B")
        .arg(python().join(script))
        .args(arguments)
        .env("VB_SHARED", shared)
        .current_dir(folder.path("."))
        .output()
        .expect("python3 runs")
}

#[test]
fn the_python_module_passes_its_own_tests() {
    let folder = Folder::new("python-tests");
    let ran = run(&folder, &shared(), "test_vb.py", &[]);
    let error = String::from_utf8_lossy(&ran.stderr).into_owned();
    assert!(ran.status.success() && error.trim_end().ends_with("OK"), "{error}");
}

#[test]
fn the_python_example_draws_the_demos_frame() {
    let folder = Folder::with_demo("python-draw");
    let ran =
        run(&folder, &shared(), "draw.py", &["out/vram.bin", "out/drawing.bin", "1", "drawn.png"]);
    assert!(ran.status.success(), "{}", String::from_utf8_lossy(&ran.stderr));
    let drawn = Rgb::read(&folder.read("drawn.png"));
    let golden = Path::new(env!("CARGO_MANIFEST_DIR")).join("tests/golden/frame1-side-by-side.png");
    assert!(drawn == Rgb::read(&std::fs::read(golden).unwrap()));
    let refused =
        run(&folder, &shared(), "draw.py", &["out/vram.bin", "out/drawing.bin", "2", "drawn.png"]);
    assert_eq!(String::from_utf8_lossy(&refused.stderr), "refusal 7\n");
}

#[test]
fn a_missing_library_is_reported() {
    let folder = Folder::new("python-missing");
    let ran = run(&folder, &folder.path("libvb.so.3"), "test_vb.py", &[]);
    let error = String::from_utf8_lossy(&ran.stderr).into_owned();
    assert!(!ran.status.success() && error.contains("libvb.so.3: cannot open"), "{error}");
}
