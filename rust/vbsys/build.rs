//! Links libvb: `libvb.a` in the directory that VB_LIB_DIR names, else in
//! target/vb/lib of the repository, where `guard/build` makes it if it is missing
//! or older than its sources.

use std::env;
use std::fs;
use std::path::{Path, PathBuf};
use std::process::{self, Command};
use std::time::SystemTime;

fn main() {
    println!("cargo:rerun-if-env-changed=VB_LIB_DIR");
    let root = repository();
    let (directory, proved) = match env::var_os("VB_LIB_DIR") {
        Some(named) => (PathBuf::from(&named), PathBuf::from(named)),
        None => (made(&root), root.join("target/staticlib")),
    };
    let library = directory.join("libvb.a");
    println!("cargo:rerun-if-changed={}", library.display());
    if !library.is_file() {
        stop(&format!("There is no static library at {}.", library.display()));
    }
    println!("cargo:rustc-env=VB_LIBRARY={}", library.display());
    println!("cargo:rustc-env=VB_PROVED={}", proved.join("libcapi.a").display());
    println!("cargo:rustc-link-search=native={}", directory.display());
    println!("cargo:rustc-link-lib=static=vb");
}

fn repository() -> PathBuf {
    let manifest = PathBuf::from(env::var_os("CARGO_MANIFEST_DIR").expect("cargo sets it"));
    manifest.ancestors().nth(2).expect("rust/vbsys lies in the repository").to_path_buf()
}

fn stop(why: &str) -> ! {
    eprintln!("{why}");
    eprintln!("Build the library with `make lib`, or name its directory in VB_LIB_DIR.");
    process::exit(1);
}

/// The directory of the repository's own library, which is made where it has to be.
fn made(root: &Path) -> PathBuf {
    let directory = root.join("target/vb/lib");
    let sources = ["crates.txt", "guard", "include/vb.h", "rust/Cargo.toml"];
    let mut sources: Vec<PathBuf> = sources.iter().map(|name| root.join(name)).collect();
    // not out/, where rt keeps its own work
    for entry in fs::read_dir(root.join("crates")).into_iter().flatten().flatten() {
        let parts = ["src", "specs", "proofs"].map(|part| entry.path().join(part));
        sources.extend(parts.into_iter().filter(|part| part.is_dir()));
    }
    for source in &sources {
        println!("cargo:rerun-if-changed={}", source.display());
    }
    let newest = sources.iter().filter_map(|source| newest(source)).max();
    let library = fs::metadata(directory.join("libvb.a"));
    let built = library.and_then(|about| about.modified()).ok();
    if built.is_none() || built < newest {
        make(root);
    }
    directory
}

/// When the newest file at or under a path was changed.
fn newest(path: &Path) -> Option<SystemTime> {
    let about = fs::metadata(path).ok()?;
    if !about.is_dir() {
        return about.modified().ok();
    }
    let entries = fs::read_dir(path).ok()?.flatten();
    entries.filter_map(|entry| newest(&entry.path())).max()
}

fn make(root: &Path) {
    let script = root.join("guard/build");
    match Command::new(&script).output() {
        Err(error) => stop(&format!("{} cannot be run: {error}.", script.display())),
        Ok(done) if !done.status.success() => {
            eprintln!("{}", String::from_utf8_lossy(&done.stdout));
            eprintln!("{}", String::from_utf8_lossy(&done.stderr));
            stop("`guard/build` failed.");
        }
        Ok(_) => {}
    }
}
