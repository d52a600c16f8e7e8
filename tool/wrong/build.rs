//! Compiles the wrong calls and has the linker put each before the library's own (`ld --wrap`).

use std::env;
use std::path::{Path, PathBuf};
use std::process::Command;

/// A program, and the calls that are wrong in it.
const WRONG: [(&str, &[&str]); 2] = [
    ("wrong_instruction", &["vb_step", "vb_run"]),
    ("wrong_pixel", &["vb_draw_frame", "vb_draw_strip"]),
];

fn main() {
    let here = PathBuf::from(env::var_os("CARGO_MANIFEST_DIR").expect("cargo sets it"));
    let out = PathBuf::from(env::var_os("OUT_DIR").expect("cargo sets it"));
    let include = here.join("../../include");
    println!("cargo:rerun-if-changed={}", include.join("vb.h").display());
    for (name, calls) in WRONG {
        let source = here.join(format!("{name}.c"));
        println!("cargo:rerun-if-changed={}", source.display());
        let object = out.join(format!("{name}.o"));
        compile(&include, &source, &object);
        println!("cargo:rustc-link-arg-bin={name}={}", object.display());
        for call in calls {
            println!("cargo:rustc-link-arg-bin={name}=-Wl,--wrap={call}");
        }
    }
}

fn compile(include: &Path, source: &Path, object: &Path) {
    let compiler = env::var_os("CC").unwrap_or_else(|| "cc".into());
    let done = Command::new(compiler)
        .args(["-std=c11", "-O1", "-Wall", "-Wextra", "-Werror", "-c", "-I"])
        .arg(include)
        .arg(source)
        .arg("-o")
        .arg(object)
        .status();
    assert!(done.is_ok_and(|status| status.success()), "{} does not compile", source.display());
}
