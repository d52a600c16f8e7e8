//! docs/TUTORIAL.md as a new user follows it: its files are saved, its commands are run, and they print what is shown.

mod common;

use std::fs;
use std::os::unix::fs::symlink;
use std::path::{Path, PathBuf};

use common::Folder;

fn repository(name: &str) -> PathBuf {
    Path::new(env!("CARGO_MANIFEST_DIR")).join("..").join(name)
}

/// A part of the page that is done.
enum Part {
    /// A block that is saved as a file.
    Save(String, String),
    Command(String),
    /// What the command before it prints first.
    Shown(String),
}

/// The blocks and the commands of the page, in order. A block is saved where the line before it names a file and ends in a
/// colon.
fn parts(page: &str) -> Vec<Part> {
    let (mut parts, mut name) = (Vec::new(), String::new());
    let mut lines = page.lines();
    while let Some(line) = lines.next() {
        if let Some(kind) = line.strip_prefix("```") {
            let block: String = lines
                .by_ref()
                .take_while(|line| *line != "```")
                .map(|l| format!("{l}\n"))
                .collect();
            parts.push(match kind {
                "text" => Part::Shown(block),
                _ => Part::Save(std::mem::take(&mut name), block),
            });
        } else if let Some(command) = line.strip_prefix("    ") {
            parts.push(Part::Command(command.to_string()));
        } else if let Some(named) = line.strip_suffix("`:") {
            name = named.rsplit('`').next().unwrap().to_string();
        }
    }
    parts
}

#[test]
fn the_tutorial_does_what_it_says() {
    let folder = Folder::new("tutorial");
    fs::create_dir(folder.path("bin")).unwrap();
    symlink(env!("CARGO_BIN_EXE_vbmodel"), folder.path("bin/vbmodel")).unwrap();
    let page = fs::read_to_string(repository("docs/TUTORIAL.md")).unwrap();
    let (mut last, mut commands, mut saved) = (String::new(), 0, 0);
    for part in parts(&page) {
        match part {
            Part::Save(name, text) => {
                let kept = fs::read_to_string(repository("examples/first").join(&name));
                assert_eq!(kept.unwrap(), text, "examples/first/{name}");
                folder.write(&name, text.as_bytes());
                saved += 1;
            }
            Part::Command(command) => {
                let ran = folder.shell(&format!("PATH=$PWD/bin:$PATH; {command}"));
                let fails = command.starts_with("vbmodel judge");
                assert_eq!(ran.status, i32::from(fails), "{command}: {}", ran.error);
                last = ran.text;
                commands += 1;
            }
            Part::Shown(text) => assert!(last.starts_with(&text), "it prints\n{last}\nnot\n{text}"),
        }
    }
    assert_eq!((saved, commands), (2, 16));
    assert!(String::from_utf8(folder.read("report.html")).unwrap().contains("die-2"));
}

#[test]
fn the_tutorials_picture_is_the_models() {
    let folder = Folder::new("tutorial-picture");
    folder.write("first.s", &fs::read(repository("examples/first/first.s")).unwrap());
    folder.write("kept.png", &fs::read(repository("docs/pictures/tutorial.png")).unwrap());
    for command in [
        "asm first.s -o first.rom",
        "run --rom first.rom --save-vram first.vram --save-drawing first.drawing",
        "compare --vram first.vram --drawing first.drawing --eyes left --left kept.png",
    ] {
        let ran = folder.vbmodel(command);
        assert_eq!(ran.status, 0, "{command}: {}{}", ran.text, ran.error);
    }
}
