//! README and the manual as a new user follows them: their commands are run as they are printed, and print what is shown.

mod common;

use std::fs;
use std::os::unix::fs::symlink;
use std::path::Path;

use common::Folder;

/// The commands of a section of README or of the manual, and what it shows of the last one before each block of text.
fn blocks(title: &str) -> Vec<(Vec<String>, String)> {
    let page = |name: &str| {
        let path = Path::new(env!("CARGO_MANIFEST_DIR")).join("..").join(name);
        fs::read_to_string(path).unwrap()
    };
    let pages = page("README.md") + &page("docs/TOOL.md");
    let section = pages.split(&format!("\n## {title}\n")).nth(1).expect("a section of the pages");
    let section = section.split("\n## ").next().unwrap();
    let (mut all, mut commands, mut shown) = (Vec::new(), Vec::new(), None::<String>);
    for line in section.lines() {
        match (&mut shown, line) {
            (None, "```text") => shown = Some(String::new()),
            (Some(text), "```") => {
                all.push((std::mem::take(&mut commands), std::mem::take(text)));
                shown = None;
            }
            (Some(text), line) => *text += &format!("{line}\n"),
            (None, line) => commands.extend(line.strip_prefix("    ").map(str::to_string)),
        }
    }
    all.push((commands, String::new()));
    all
}

/// Runs a section's commands in a folder where `./vbmodel` is the tool; none may end with a status above `worst`.
fn follow(folder: &Folder, title: &str, worst: i32) {
    for (commands, shown) in blocks(title) {
        let mut last = String::new();
        for command in &commands {
            let ran = folder.shell(command);
            assert!(ran.status <= worst, "{command}: {}", ran.error);
            last = ran.text;
        }
        assert!(
            last.starts_with(&shown),
            "{commands:?} prints\n{last}\nand the page shows\n{shown}"
        );
    }
}

fn repository(name: &str) -> Folder {
    let folder = Folder::new(name);
    symlink(env!("CARGO_BIN_EXE_vbmodel"), folder.path("vbmodel")).unwrap();
    folder
}

/// Two parts of the demo's wafer are invalid, so the status is 2.
#[test]
fn readme_leads_from_a_plan_and_a_lot_to_a_report_in_one_command() {
    let folder = repository("readme-wafer");
    follow(&folder, "Judging a wafer", 2);
    let page = String::from_utf8(folder.read("report.html")).unwrap();
    assert!(page.contains("<h3>die-14: fail, bin 4</h3>"));
}

#[test]
fn the_manual_leads_from_a_folder_of_captures_to_a_report() {
    let folder = repository("readme-judge");
    follow(&folder, "Judging a lot", 1);
    let page = String::from_utf8(folder.read("report.html")).unwrap();
    assert!(page.contains("<h3>die-2: fail, bin 2</h3>"));
}

#[test]
fn the_manual_compares_and_follows_as_it_shows() {
    let folder = repository("readme-compare");
    assert_eq!(folder.shell("./vbmodel demo").status, 0);
    follow(&folder, "Comparing a capture", 1);
    follow(&folder, "Following a program", 1);
}

#[test]
fn the_manual_records_a_trace_and_finds_its_wrong_flag() {
    follow(&repository("readme-traces"), "Traces", 1);
}
