//! What is checked: the linked library by its digest, and an installed program by its recorded sum.

use std::env;
use std::fs;
use std::path::PathBuf;

use sha2::{Digest, Sha256};

use crate::files::shown;
use crate::version::version;

/// The library must be of the program's own version. A program that was installed with a list of sums must have its sum;
/// anything else panics.
pub fn digest() -> String {
    let version = version();
    let library = version.library.split(',').next().unwrap_or_default();
    assert_eq!(
        library,
        format!("libvb {}", version.version),
        "the linked library is of another version"
    );
    let sum = match recorded() {
        None => "the program is not installed, so no sum of it is recorded".to_string(),
        Some((list, recorded)) => {
            let program = env::current_exe().and_then(fs::read).expect("the program can be read");
            let seen: String =
                Sha256::digest(program).iter().map(|byte| format!("{byte:02x}")).collect();
            assert_eq!(seen, recorded, "the program has another sum than {} says", shown(&list));
            "the program has its recorded sum".to_string()
        }
    };
    format!("proved archive SHA-256 {}; {sum}", version.archive)
}

/// The list of sums that a package installs, and the program's sum in it.
fn recorded() -> Option<(PathBuf, String)> {
    let program = env::current_exe().ok()?;
    let prefix = program.parent()?.parent()?;
    let lists = ["share/doc/vbmodel/SHA256SUMS", "SHA256SUMS"].map(|name| prefix.join(name));
    let list = lists.into_iter().find(|list| list.is_file())?;
    let text = fs::read_to_string(&list).ok()?;
    let line = text
        .lines()
        .find(|line| line.ends_with(" bin/vbmodel") || line.ends_with("/bin/vbmodel"))?;
    Some((list, line.split_whitespace().next()?.to_string()))
}
