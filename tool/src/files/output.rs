//! Files that are written: each is first written next to its place under a temporary name. Only when all are there are
//! they given their names; where one cannot be, the others get back what they were.

use std::cell::RefCell;
use std::fs::{self, File};
use std::io::{self, Write};
use std::os::unix::fs::MetadataExt;
use std::path::{Path, PathBuf};

use super::input::reason;
use super::names::shown;
use super::place::{folder_of, Place};
use super::stream::{Sink, Stream};
use super::temporary::{keep_folders, make_folder, remove_folders, Committing, Temporary};
use crate::failure::Failure;

#[derive(Default)]
pub struct Outputs {
    files: Vec<Output>,
    streams: RefCell<Vec<Stream>>,
    /// The names of the streams that are reported with the others.
    grown: Vec<String>,
}

struct Output {
    path: PathBuf,
    bytes: Vec<u8>,
    kind: Kind,
}

/// How an output's path is taken.
#[derive(Clone, Copy, PartialEq, Eq)]
pub enum Kind {
    /// A file in a folder that is there.
    File,
    /// A file in a folder that the command makes.
    InFolder,
    /// The one file that a command is for: `-` is standard output.
    Main,
}

impl Outputs {
    /// A file; its folder must be there.
    pub fn add(&mut self, path: impl Into<PathBuf>, bytes: Vec<u8>) {
        self.files.push(Output { path: path.into(), bytes, kind: Kind::File });
    }

    /// A file in a folder that is made where it is not there.
    pub fn add_in(&mut self, folder: &Path, name: impl AsRef<Path>, bytes: Vec<u8>) {
        self.files.push(Output { path: folder.join(name), bytes, kind: Kind::InFolder });
    }

    /// The file that the command is for; `-` is standard output.
    pub fn add_main(&mut self, path: impl Into<PathBuf>, bytes: Vec<u8>) {
        self.files.push(Output { path: path.into(), bytes, kind: Kind::Main });
    }

    /// A file that has grown while the command ran.
    pub fn add_stream(&mut self, stream: Stream) {
        self.grown.extend(stream.named());
        self.streams.get_mut().push(stream);
    }

    /// The names, as they are printed.
    pub fn paths(&self) -> Vec<String> {
        let files = self.files.iter().map(|output| shown(&output.path));
        self.grown.iter().cloned().chain(files).collect()
    }

    /// Whether these files could be written, found out by making and removing them under temporary names.
    pub fn test<'a>(paths: impl IntoIterator<Item = &'a Path>) -> Result<(), Failure> {
        let mut outputs = Outputs::default();
        paths.into_iter().for_each(|path| outputs.add(path, Vec::new()));
        outputs.staged().map(|_| ())
    }

    /// Writes all of them, or none.
    pub fn write(&self) -> Result<(), Failure> {
        let streams = self.streams.take();
        let mut staged = self.staged()?;
        for stream in streams {
            staged.take(stream)?;
        }
        // what cannot be taken back comes first: where it fails, no file has got its name
        for (target, bytes, path) in &staged.through {
            written_through(target, bytes).map_err(|error| failed(path, &error))?;
        }
        staged.commit()
    }

    fn staged(&self) -> Result<Staged<'_>, Failure> {
        let mut staged = Staged::default();
        for Output { path, bytes, kind } in &self.files {
            let place = place_of(path, *kind, &mut staged.folders)?;
            if staged.places.iter().any(|other| other.same(&place)) {
                return Err(Failure::bad(format!("{}: named for two outputs", shown(path))));
            }
            staged.stage(&place, bytes, path).map_err(|error| failed(path, &error))?;
            staged.places.push(place);
        }
        Ok(staged)
    }
}

/// Where an output goes, after every rule on it was tested.
pub fn place_of(path: &Path, kind: Kind, folders: &mut Vec<PathBuf>) -> Result<Place, Failure> {
    if path == Path::new("-") {
        return match kind {
            Kind::Main => Ok(Place::StandardOutput),
            _ => Err(Failure::bad(
                "-: cannot be standard output here; it must be a file (`./-` is one of that name)",
            )),
        };
    }
    let mut folder = |folder: &Path| match kind {
        Kind::InFolder => make_folder(folder, folders),
        _ => must_be_there(folder),
    };
    let place = Place::of(path, &mut folder).map_err(|error| failed(path, &error))?;
    if place.was_read() {
        let rule = "is read by this command, and would be written over; nothing was written";
        return Err(Failure::bad(format!("{}: {rule}", shown(path))));
    }
    Ok(place)
}

fn must_be_there(folder: &Path) -> io::Result<()> {
    match fs::metadata(folder) {
        Ok(there) if there.is_dir() => Ok(()),
        Ok(_) => Err(io::Error::other(format!("{} is a file, not a folder", shown(folder)))),
        Err(_) => Err(io::Error::other(format!("there is no folder {}", shown(folder)))),
    }
}

/// Writes to what is not a regular file. Standard output and standard error go on where they are.
fn written_through(target: &Path, bytes: &[u8]) -> io::Result<()> {
    let is = |names: [&str; 3]| names.iter().any(|name| target == Path::new(name));
    if is(["/dev/stdout", "/dev/fd/1", "/proc/self/fd/1"]) || target == Path::new("-") {
        let mut out = io::stdout().lock();
        return out.write_all(bytes).and_then(|()| out.flush());
    }
    if is(["/dev/stderr", "/dev/fd/2", "/proc/self/fd/2"]) {
        return io::stderr().lock().write_all(bytes);
    }
    File::options().write(true).open(target)?.write_all(bytes)
}

pub fn failed(path: &Path, error: &io::Error) -> Failure {
    Failure::bad(format!("{}: {}; nothing was written", shown(path), reason(error)))
}

/// Files under their temporary names with the names they will have and those that were asked for, what is written
/// through, and the folders that were made. Files and folders are removed again unless they are committed.
#[derive(Default)]
struct Staged<'a> {
    places: Vec<Place>,
    files: Vec<(Temporary, PathBuf, PathBuf)>,
    through: Vec<(PathBuf, &'a [u8], &'a Path)>,
    folders: Vec<PathBuf>,
}

impl<'a> Staged<'a> {
    fn stage(&mut self, place: &Place, bytes: &'a [u8], path: &'a Path) -> io::Result<()> {
        match place {
            Place::StandardOutput => self.through.push((PathBuf::from("-"), bytes, path)),
            Place::Through { target, .. } => self.through.push((target.clone(), bytes, path)),
            Place::File { target, now } => {
                let mut temporary = Temporary::new(folder_of(target), now.as_ref())?;
                temporary.write_all(bytes)?;
                self.files.push((temporary, target.clone(), path.to_path_buf()));
            }
        }
        Ok(())
    }

    /// Takes a stream's file among the others; what went through a pipe is there already.
    fn take(&mut self, stream: Stream) -> Result<(), Failure> {
        let (path, sink) = stream.finished()?;
        if let Sink::Temporary { file, target, now } = sink {
            let place = Place::File { target: target.clone(), now: now.map(|now| *now) };
            if self.places.iter().any(|other| other.same(&place)) {
                return Err(Failure::bad(format!("{}: named for two outputs", shown(&path))));
            }
            self.files.push((file, target, path));
            self.places.push(place);
        }
        Ok(())
    }

    /// Gives every file its name. Where one fails, those before it get back what they were.
    fn commit(mut self) -> Result<(), Failure> {
        let files = std::mem::take(&mut self.files);
        let alone = files.len() == 1;
        let mut before = Vec::new();
        for (_, target, path) in &files {
            let kept = if alone { Ok(Before::Absent) } else { Before::of(target) };
            before.push(kept.map_err(|error| failed(path, &error))?);
        }
        let committing = Committing::begin();
        let mut done: Vec<(PathBuf, Before)> = Vec::new();
        for ((file, target, path), was) in files.into_iter().zip(before) {
            if let Err(error) = file.persist(&target) {
                done.into_iter().rev().for_each(|(target, was)| was.restore(&target));
                drop(committing);
                return Err(failed(&path, &error));
            }
            done.push((target, was));
        }
        drop(committing);
        keep_folders(&mut self.folders);
        Ok(())
    }
}

impl Drop for Staged<'_> {
    fn drop(&mut self) {
        self.files.clear();
        remove_folders(&mut self.folders);
    }
}

/// What an output's name stood for before.
enum Before {
    Absent,
    /// The file that was there, under a second name, or a copy of it.
    File(Temporary),
}

impl Before {
    fn of(target: &Path) -> io::Result<Before> {
        let Ok(now) = fs::metadata(target) else { return Ok(Before::Absent) };
        let kept = Temporary::new(folder_of(target), Some(&now))?;
        // a second name of another one's file could not always be removed again
        let own = fs::metadata(kept.path()).is_ok_and(|own| own.uid() == now.uid());
        let linked = own
            && fs::remove_file(kept.path()).is_ok()
            && fs::hard_link(target, kept.path()).is_ok();
        if !linked {
            fs::copy(target, kept.path())?;
        }
        Ok(Before::File(kept))
    }

    fn restore(self, target: &Path) {
        let _ = match self {
            Before::Absent => fs::remove_file(target),
            Before::File(kept) => kept.persist(target),
        };
    }
}
