//! The pages and examples of the package, as packaging/page writes them from packaging/contents: no link is broken, the
//! commands are those that the package installs, and the programs assemble.

mod common;

use std::collections::BTreeMap;
use std::fs;
use std::path::{Path, PathBuf};
use std::process::Command;

use common::Folder;

fn repository() -> PathBuf {
    Path::new(env!("CARGO_MANIFEST_DIR")).join("..")
}

fn printed(command: &str, arguments: &[&str]) -> Vec<u8> {
    let output = Command::new(repository().join(command)).args(arguments).output().unwrap();
    assert!(output.status.success(), "{command} {arguments:?}: {output:?}");
    output.stdout
}

/// The package's files by their places, each with where it comes from.
fn contents() -> BTreeMap<String, String> {
    let lines = String::from_utf8(printed("packaging/contents", &[])).unwrap();
    let pairs = lines.lines().map(|line| line.split_once(' ').expect("a source and a place"));
    pairs.map(|(source, place)| (place.to_string(), source.to_string())).collect()
}

/// The targets of a page's links, without the part after #.
fn links(page: &str) -> Vec<&str> {
    let starts = page.match_indices("](").map(|(at, _)| &page[at + 2..]);
    let targets = starts.filter_map(|rest| rest.split_once(')').map(|(target, _)| target));
    let files = targets.filter(|target| !target.contains(':') && !target.starts_with('#'));
    files.map(|target| target.split('#').next().unwrap()).collect()
}

/// A path without `.` and `..`.
fn plain(path: &Path) -> String {
    let mut parts: Vec<&str> = Vec::new();
    for part in path.to_str().unwrap().split('/') {
        match part {
            "" | "." => {}
            ".." => drop(parts.pop().expect("inside the package")),
            part => parts.push(part),
        }
    }
    parts.join("/")
}

#[test]
fn every_link_of_the_packaged_pages_leads_to_a_file_of_the_package() {
    let contents = contents();
    let mut seen = 0;
    for (place, source) in contents.iter().filter(|(place, _)| place.ends_with(".md")) {
        let page = String::from_utf8(printed("packaging/page", &[source, place])).unwrap();
        let folder = Path::new(place).parent().unwrap();
        for target in links(&page) {
            let target = plain(&folder.join(target));
            let inside = |name: &String| *name == target || name.starts_with(&format!("{target}/"));
            assert!(contents.keys().any(inside), "{place}: {target}");
            seen += 1;
        }
        let commands = page.lines().filter(|line| line.starts_with("    "));
        for command in commands {
            assert!(!command.contains("./vbmodel"), "{place}: {command}");
        }
    }
    assert!(seen > 40, "{seen} links");
}

#[test]
fn the_package_has_the_programmers_pages_and_the_programs_as_source() {
    let contents = contents();
    for place in [
        "README.md",
        "docs/TOOL.md",
        "docs/CONSOLE.md",
        "docs/TUTORIAL.md",
        "docs/pictures/tutorial.png",
        "examples/first/first.s",
        "examples/first/plan.toml",
        "examples/cartridges/console.s",
        "examples/cartridges/build",
        "examples/draw.py",
    ] {
        assert!(contents.contains_key(place), "{place}");
    }
    let readme = fs::read_to_string(repository().join("packaging/README.md")).unwrap();
    for word in ["make ", "./vbmodel", "cargo", "`rt "] {
        assert!(!readme.contains(word), "the package has no `{word}`");
    }
    assert!(links(&readme).iter().all(|link| repository().join("packaging").join(link).exists()));
}

/// What README of the package says, with the files as they are installed.
#[test]
fn the_packaged_examples_are_assembled_and_the_readmes_commands_run() {
    let folder = Folder::new("packaged");
    for (place, source) in contents().iter().filter(|(place, _)| place.starts_with("examples/")) {
        fs::create_dir_all(folder.path(place).parent().unwrap()).unwrap();
        folder.write(place, &printed("packaging/page", &[source, place]));
    }
    fs::create_dir(folder.path("bin")).unwrap();
    std::os::unix::fs::symlink(env!("CARGO_BIN_EXE_vbmodel"), folder.path("bin/vbmodel")).unwrap();
    let run = |line: &str| folder.shell(&format!("PATH=$PWD/bin:$PATH; {line}"));
    let built = run("sh examples/cartridges/build roms && ls roms/*.rom | wc -l");
    assert_eq!(built.status, 0, "{}", built.error);
    assert!(built.text.trim().parse::<u32>().unwrap() >= 20, "{}", built.text);
    let readme = fs::read_to_string(repository().join("packaging/README.md")).unwrap();
    // selftest takes seconds and has tests of its own; the compiler and Python need the installed library
    let mut commands: Vec<&str> =
        readme.lines().filter_map(|line| line.strip_prefix("    vbmodel ")).collect();
    commands.retain(|command| *command != "selftest");
    assert!(commands.len() >= 4, "{commands:?}");
    for command in commands {
        let ran = run(&format!("vbmodel {command}"));
        // of the demo's lot two parts cannot be judged
        let expected = if command.starts_with("judge") { 2 } else { 0 };
        assert_eq!(ran.status, expected, "{command}: {}", ran.error);
    }
}
