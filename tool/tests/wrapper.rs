//! The wrapper `vbmodel` of the repository, in a separate folder with stand-ins for setup, rt, cargo and the tool.

mod common;

use std::fs;
use std::os::unix::fs::{symlink, PermissionsExt};
use std::path::Path;
use std::process::Command;
use std::time::{Duration, Instant, SystemTime};

use common::Folder;

/// The stand-in for cargo makes a tool that prints how it was called.
const CARGO: &str = "#!/bin/sh
echo built >>\"$LOG\"
mkdir -p target/release
printf '#!/bin/sh\\necho \"$VBMODEL_CALLED: $*\"\\n' >target/release/vbmodel
chmod +x target/release/vbmodel
";

fn script(folder: &Folder, name: &str, text: &str) {
    folder.write(name, text.as_bytes());
    fs::set_permissions(folder.path(name), fs::Permissions::from_mode(0o755)).unwrap();
}

/// A repository without contents.
fn repository(name: &str) -> Folder {
    let folder = Folder::new(name);
    for inner in
        ["crates/word/src", "guard", "include", "rust", "tool/src", "bin", "elsewhere/tool"]
    {
        fs::create_dir_all(folder.path(inner)).unwrap();
    }
    for source in ["crates.txt", "crates/word/src/lib.rt", "include/vb.h", "tool/src/main.rs"] {
        folder.write(source, b"x");
    }
    let wrapper = Path::new(env!("CARGO_MANIFEST_DIR")).join("../vbmodel");
    script(&folder, "vbmodel", &fs::read_to_string(wrapper).unwrap());
    script(&folder, "setup", "#!/bin/sh\n");
    script(&folder, "guard/prove", "#!/bin/sh\n");
    script(&folder, "bin/rt", "#!/bin/sh\n");
    script(&folder, "bin/cargo", CARGO);
    folder
}

/// Calls the wrapper by this name, and gives what it printed.
fn call(folder: &Folder, wrapper: &str, from: &str) -> String {
    let path = format!("{}:{}", folder.path("bin").display(), std::env::var("PATH").unwrap());
    let output = Command::new(wrapper)
        .args(["why", "left"])
        .current_dir(folder.path(from))
        .env("PATH", path)
        .env("LOG", folder.path("log"))
        .env("CDPATH", folder.path("elsewhere"))
        .output()
        .unwrap();
    assert!(output.status.success(), "{}", String::from_utf8_lossy(&output.stderr));
    String::from_utf8(output.stdout).unwrap()
}

fn builds(folder: &Folder) -> usize {
    fs::read_to_string(folder.path("log")).unwrap_or_default().lines().count()
}

#[test]
fn the_wrapper_works_through_a_symlink_and_with_cdpath() {
    let folder = repository("wrapper-links");
    assert_eq!(call(&folder, "./vbmodel", "."), "./vbmodel: why left\n");
    assert_eq!(call(&folder, "../vbmodel", "rust"), "../vbmodel: why left\n");
    symlink("../vbmodel", folder.path("bin/vb")).unwrap();
    symlink(folder.path("bin/vb"), folder.path("elsewhere/vb")).unwrap();
    let link = folder.path("elsewhere/vb");
    let called = call(&folder, link.to_str().unwrap(), "elsewhere");
    assert_eq!(called, format!("{}: why left\n", link.display()));
    assert_eq!(builds(&folder), 1);
}

/// The aim is 10 ms more than the tool's own start, on an idle machine. The repository has as many sources as this one,
/// under the same names.
#[test]
#[ignore = "timed"]
fn speed_the_wrapper() {
    let folder = repository("wrapper-speed");
    let root = Path::new(env!("CARGO_MANIFEST_DIR")).join("..");
    let mut count = 0;
    for part in ["crates", "include", "rust", "tool"] {
        count += copy_names(&root.join(part), &folder.path(part));
    }
    assert!(count > 500, "{count} files");
    call(&folder, "./vbmodel", ".");
    let least = |command: &str| {
        let took = (0..10).map(|_| {
            let begun = Instant::now();
            call(&folder, command, ".");
            begun.elapsed()
        });
        took.min().unwrap()
    };
    let (through, alone) = (least("./vbmodel"), least("tool/target/release/vbmodel"));
    println!("the tool {alone:?}, through the wrapper {through:?}");
    assert!(through.saturating_sub(alone).as_millis() < 10, "{alone:?} {through:?}");
    assert_eq!(builds(&folder), 1);
}

/// Empty files of the same names in another folder; how many.
fn copy_names(from: &Path, to: &Path) -> usize {
    fs::create_dir_all(to).unwrap();
    let mut count = 0;
    for entry in fs::read_dir(from).unwrap().map(|entry| entry.unwrap()) {
        let (there, here) = (entry.path(), to.join(entry.file_name()));
        if entry.file_name() == "target" {
            continue;
        }
        if there.is_dir() {
            count += copy_names(&there, &here);
        } else if !here.exists() {
            fs::write(here, b"").unwrap();
            count += 1;
        }
    }
    count
}

#[test]
fn the_wrapper_builds_again_for_a_source_alone() {
    let folder = repository("wrapper-times");
    let age = |name: &str, time: SystemTime| {
        fs::File::options()
            .append(true)
            .open(folder.path(name))
            .unwrap()
            .set_modified(time)
            .unwrap();
    };
    let future = SystemTime::now() + Duration::from_secs(1_000_000);
    age("tool/src/main.rs", future);
    for _ in 0..3 {
        call(&folder, "./vbmodel", ".");
    }
    assert_eq!(builds(&folder), 1, "a source's time lies in the future");
    for name in [".main.rs.swp", "main.rs~", "#main.rs#", ".#main.rs", "4913"] {
        folder.write(&format!("tool/src/{name}"), b"x");
        call(&folder, "./vbmodel", ".");
        assert_eq!(builds(&folder), 1, "{name} is an editor's");
    }
    age("tool/src/main.rs", future - Duration::from_secs(2_000_000));
    call(&folder, "./vbmodel", ".");
    assert_eq!(builds(&folder), 2, "a source changed, though to an older time");
    folder.write("crates/word/src/more.rt", b"x");
    call(&folder, "./vbmodel", ".");
    assert_eq!(builds(&folder), 3, "a source is new");
    fs::create_dir(folder.path("crates/word/proofs")).unwrap();
    folder.write("crates/word/proofs/Proof.antt", b"x");
    call(&folder, "./vbmodel", ".");
    assert_eq!(builds(&folder), 3, "a proof says nothing new");
    fs::create_dir_all(folder.path("crates/word/out/rlib")).unwrap();
    folder.write("crates/word/out/rlib/lib.rt", b"x");
    call(&folder, "./vbmodel", ".");
    assert_eq!(builds(&folder), 3, "rt's own work is no source");
    fs::create_dir(folder.path("crates/word/specs")).unwrap();
    folder.write("crates/word/specs/Lib.antt", b"x");
    call(&folder, "./vbmodel", ".");
    assert_eq!(builds(&folder), 4, "a statement is new");
}
