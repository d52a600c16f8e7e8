//! One version everywhere, and what `--version` says of the program and its library.

mod common;

use std::fs;
use std::path::Path;

use common::Folder;

fn read(name: &str) -> String {
    let path = Path::new(env!("CARGO_MANIFEST_DIR")).join("..").join(name);
    fs::read_to_string(&path).unwrap_or_else(|error| panic!("{}: {error}", path.display()))
}

/// The version line of a manifest.
fn manifest(name: &str) -> String {
    let text = read(name);
    let line = text.lines().find_map(|line| line.strip_prefix("version = \"")).expect("a version");
    line.trim_end_matches('"').to_string()
}

#[test]
fn tool_library_and_changelog_have_one_version() {
    let version = manifest("tool/Cargo.toml");
    assert_eq!(version, env!("CARGO_PKG_VERSION"));
    assert_eq!(manifest("rust/Cargo.toml"), version);
    assert!(vbsys::version_text().starts_with(&format!("libvb {version}, ")));
    let changes = read("CHANGELOG.md");
    let released = changes.lines().find(|line| line.starts_with("## ") && *line != "## Unreleased");
    let released = released.expect("a section of a version");
    assert!(released.starts_with(&format!("## {version} (20")), "{released}");
}

#[test]
fn version_names_commit_interface_archive_and_proof() {
    let folder = Folder::new("version");
    let long = folder.vbmodel("--version");
    assert_eq!(long.status, 0);
    let lines: Vec<&str> = long.text.lines().collect();
    assert_eq!(lines.len(), 6, "{}", long.text);
    assert_eq!(lines[0], concat!("vbmodel ", env!("CARGO_PKG_VERSION")));
    assert!(lines[1].starts_with("commit ") || lines[1].starts_with("changed since commit "));
    assert_eq!(lines[2], format!("VB_VERSION {}", vbsys::VERSION));
    let library = format!("{}, {}, {}", lines[3], lines[4], lines[5]);
    assert_eq!(library, vbsys::version_text());
    assert_eq!(folder.vbmodel("-V").text, format!("{}\n", lines[0]));
}
