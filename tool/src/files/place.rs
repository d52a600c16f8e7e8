//! Where an output goes: which file a path names in the end, and whether it may be written.

use std::fs::{self, File, Metadata};
use std::io;
use std::os::unix::ffi::OsStrExt;
use std::os::unix::fs::FileTypeExt;
use std::path::{Path, PathBuf};

use super::read::was_read;
use super::Identity;

/// What a path names.
pub enum Place {
    /// Standard output, as `-` names it.
    StandardOutput,
    /// A file that is replaced or made: its path without symlinks, and what is there now.
    File { target: PathBuf, now: Option<Metadata> },
    /// A device, a FIFO or a socket: it is written to and stays what it is.
    Through { target: PathBuf, now: Metadata },
}

impl Place {
    /// Finds the place; `make` makes its folder, or refuses one that is not there.
    pub fn of(path: &Path, make: &mut dyn FnMut(&Path) -> io::Result<()>) -> io::Result<Place> {
        if path.as_os_str().as_bytes().ends_with(b"/") {
            return Err(io::Error::other("is not a file name"));
        }
        match fs::metadata(path) {
            Ok(now) if now.is_dir() => Err(io::Error::other("is a folder")),
            Ok(now) if !now.is_file() || is_open_file(path) => {
                Ok(Place::Through { target: path.to_path_buf(), now })
            }
            Ok(now) => {
                let target = fs::canonicalize(path)?;
                may_be_written(&target, &now)?;
                Ok(Place::File { target, now: Some(now) })
            }
            Err(_) => {
                let last = last_link(path)?;
                let Some(name) = last.file_name() else {
                    return Err(io::Error::other("is not a file name"));
                };
                let folder = folder_of(&last);
                make(folder)?;
                Ok(Place::File { target: fs::canonicalize(folder)?.join(name), now: None })
            }
        }
    }

    /// Whether two outputs would be written over each other. What a character device is given is not kept.
    pub fn same(&self, other: &Place) -> bool {
        let identity = |place: &Place| match place {
            Place::StandardOutput => None,
            Place::File { now, .. } => now.as_ref().map(Identity::of),
            Place::Through { now, .. } if now.file_type().is_char_device() => None,
            Place::Through { now, .. } => Some(Identity::of(now)),
        };
        match (self, other) {
            (Place::File { target: a, .. }, Place::File { target: b, .. }) if a == b => true,
            _ => identity(self).is_some() && identity(self) == identity(other),
        }
    }

    /// Whether a file that was read would be written over.
    pub fn was_read(&self) -> bool {
        match self {
            Place::File { now, .. } => now.as_ref().is_some_and(was_read),
            Place::StandardOutput | Place::Through { .. } => false,
        }
    }
}

/// A file that the process has open already, such as /dev/stdout: replacing it would lose what is printed.
fn is_open_file(path: &Path) -> bool {
    ["/dev/stdout", "/dev/stderr", "/dev/fd", "/proc"].iter().any(|start| path.starts_with(start))
}

fn may_be_written(target: &Path, now: &Metadata) -> io::Result<()> {
    if now.permissions().readonly() {
        return Err(io::Error::other("is read-only"));
    }
    File::options().write(true).open(target).map(|_| ())
}

/// The folder that a path lies in.
pub fn folder_of(path: &Path) -> &Path {
    match path.parent() {
        Some(parent) if !parent.as_os_str().is_empty() => parent,
        _ => Path::new("."),
    }
}

/// Follows symlinks to a name that is not there.
fn last_link(path: &Path) -> io::Result<PathBuf> {
    let mut path = path.to_path_buf();
    for _ in 0..40 {
        match fs::read_link(&path) {
            Ok(next) => path = folder_of(&path).join(next),
            Err(_) => return Ok(path),
        }
    }
    Err(io::Error::other("is a symlink that leads nowhere"))
}
