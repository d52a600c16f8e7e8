//! Tells the program which commit it is built from: `VBMODEL_COMMIT`.

use std::path::Path;
use std::process::Command;

fn main() {
    let root = Path::new(env!("CARGO_MANIFEST_DIR")).join("..");
    for source in
        ["crates", "crates.txt", "guard", "include", "rust", "tool/src", "tool/Cargo.toml"]
    {
        println!("cargo:rerun-if-changed={}", root.join(source).display());
    }
    for name in ["HEAD", "index"] {
        if let Some(path) = git(&root, &["rev-parse", "--git-path", name]) {
            println!("cargo:rerun-if-changed={}", root.join(path).display());
        }
    }
    println!("cargo:rustc-env=VBMODEL_COMMIT={}", commit(&root));
}

/// `commit ID`, `changed since commit ID` where a source is not as committed, or that it is not known.
fn commit(root: &Path) -> String {
    let Some(id) = git(root, &["rev-parse", "--short=12", "HEAD"]) else {
        return "commit unknown".into();
    };
    let sources = ["crates", "crates.txt", "guard", "include", "rust", "tool"];
    let status = git(root, &[&["status", "--porcelain", "--"], &sources[..]].concat());
    match status.as_deref() {
        Some("") => format!("commit {id}"),
        _ => format!("changed since commit {id}"),
    }
}

/// What git prints, where it is there and succeeds.
fn git(root: &Path, arguments: &[&str]) -> Option<String> {
    let ran = Command::new("git").arg("-C").arg(root).args(arguments).output().ok()?;
    ran.status.success().then(|| String::from_utf8_lossy(&ran.stdout).trim().to_string())
}
