//! Temporary files: an output has one next to its place until it is whole. None outlives its command. One that a killed
//! command left is removed by the next command that writes in that folder.
//!
//! A file in use is locked by its owner, and the system takes the lock back when the owner ends, however it ends: a file
//! whose lock can be had has no owner.

use std::fs::{self, File, Metadata, Permissions};
use std::io::{self, Write};
use std::os::unix::fs::PermissionsExt;
use std::path::{Path, PathBuf};
use std::sync::{Mutex, MutexGuard, PoisonError};

use tempfile::{Builder, NamedTempFile};

use super::names::shown;
use super::Identity;

const PREFIX: &str = ".vbmodel-";
const SUFFIX: &str = ".part";

/// What must go when the command is stopped: temporary files, and folders that were made for outputs.
static LIVE: Mutex<Vec<Live>> = Mutex::new(Vec::new());

#[derive(PartialEq, Eq)]
enum Live {
    File(PathBuf),
    Folder(PathBuf),
}

fn live() -> MutexGuard<'static, Vec<Live>> {
    LIVE.lock().unwrap_or_else(PoisonError::into_inner)
}

/// Removes every temporary file and made folder. The process must end next: no more can be made.
pub fn remove_all() {
    let mut all = live();
    for one in all.drain(..).rev() {
        let _ = match one {
            Live::File(path) => fs::remove_file(path),
            Live::Folder(path) => fs::remove_dir(path),
        };
    }
    std::mem::forget(all);
}

/// While this is held, a signal does not end the process: files are being given their names.
pub struct Committing {
    _held: MutexGuard<'static, Vec<Live>>,
}

impl Committing {
    pub fn begin() -> Committing {
        Committing { _held: live() }
    }
}

/// A file under a temporary name, removed unless it is given another one.
pub struct Temporary(NamedTempFile);

impl Temporary {
    /// A new one in this folder, with the rights of the file that it will replace.
    pub fn new(folder: &Path, replaced: Option<&Metadata>) -> io::Result<Temporary> {
        sweep(folder);
        let mut all = live();
        let file = loop {
            let made = Builder::new().prefix(PREFIX).suffix(SUFFIX).tempfile_in(folder)?;
            // another command may have taken it for one without an owner, before it was locked
            if made.as_file().try_lock().is_ok() && is_there(&made) {
                break made;
            }
        };
        fs::set_permissions(
            file.path(),
            replaced.map_or_else(of_a_new_file, Metadata::permissions),
        )?;
        all.push(Live::File(file.path().to_path_buf()));
        Ok(Temporary(file))
    }

    pub fn path(&self) -> &Path {
        self.0.path()
    }

    /// Gives it its name. A `Committing` must be held.
    pub fn persist(self, target: &Path) -> io::Result<()> {
        // NamedTempFile removes the file by its old name where this fails
        self.0.persist(target).map(|_| ()).map_err(|error| error.error)
    }
}

impl Write for Temporary {
    fn write(&mut self, bytes: &[u8]) -> io::Result<usize> {
        self.0.write(bytes)
    }

    fn flush(&mut self) -> io::Result<()> {
        self.0.flush()
    }
}

fn is_there(made: &NamedTempFile) -> bool {
    let named = fs::symlink_metadata(made.path()).map(|about| Identity::of(&about));
    let open = made.as_file().metadata().map(|about| Identity::of(&about));
    matches!((named, open), (Ok(named), Ok(open)) if named == open)
}

/// Removes temporary files without an owner.
fn sweep(folder: &Path) {
    for entry in fs::read_dir(folder).into_iter().flatten().flatten() {
        let name = entry.file_name();
        let ours = name.to_str().is_some_and(|n| n.starts_with(PREFIX) && n.ends_with(SUFFIX));
        if !ours || !entry.file_type().is_ok_and(|kind| kind.is_file()) {
            continue;
        }
        let path = entry.path();
        if File::open(&path).is_ok_and(|file| file.try_lock().is_ok()) {
            let _ = fs::remove_file(path);
        }
    }
}

/// Makes a folder and those above it; the first of them that was not there comes first.
pub fn make_folder(folder: &Path, made: &mut Vec<PathBuf>) -> io::Result<()> {
    if folder.is_dir() {
        return Ok(());
    }
    let parent = folder.parent().filter(|parent| !parent.as_os_str().is_empty());
    if let Some(parent) = parent.filter(|_| !folder.exists()) {
        make_folder(parent, made)?;
    }
    // `new/..` is there as soon as `new` is
    match fs::metadata(folder) {
        Ok(there) if there.is_dir() => return Ok(()),
        Ok(_) => {
            let message = format!("{} is a file, not a folder", shown(folder));
            return Err(io::Error::other(message));
        }
        Err(_) => fs::create_dir(folder)?,
    }
    live().push(Live::Folder(folder.to_path_buf()));
    made.push(folder.to_path_buf());
    Ok(())
}

/// Removes made folders again where they are empty.
pub fn remove_folders(made: &mut Vec<PathBuf>) {
    for folder in made.drain(..).rev() {
        let _ = fs::remove_dir(&folder);
        live().retain(|one| *one != Live::Folder(folder.clone()));
    }
}

/// Made folders stay: they hold what was asked for.
pub fn keep_folders(made: &mut Vec<PathBuf>) {
    for folder in made.drain(..) {
        live().retain(|one| *one != Live::Folder(folder.clone()));
    }
}

/// The rights of a new file: a temporary file has fewer.
fn of_a_new_file() -> Permissions {
    let status = fs::read_to_string("/proc/self/status").unwrap_or_default();
    let mask = status.lines().find_map(|line| line.strip_prefix("Umask:"));
    let mask = mask.and_then(|mask| u32::from_str_radix(mask.trim(), 8).ok()).unwrap_or(0o022);
    Permissions::from_mode(0o666 & !mask)
}
